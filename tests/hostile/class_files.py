"""Makes class files part by part (The Java Virtual Machine Specification, chapter 4)."""

import struct

MOST_BYTES = 1 << 20
MOST_PLACES = 65535

PUBLIC, STATIC, SUPER, NATIVE, INTERFACE, ABSTRACT = 0x0001, 0x0008, 0x0020, 0x0100, 0x0200, 0x0400
NOP, ACONST_NULL, ICONST_0, GOTO, RETURN, IFEQ = 0x00, 0x01, 0x03, 0xA7, 0xB1, 0x99
TABLESWITCH, LOOKUPSWITCH, GETSTATIC, POP = 0xAA, 0xAB, 0xB2, 0x57
GOTO_W, WIDE, ALOAD, ISTORE, ASTORE, INVOKESTATIC, CHECKCAST = 0xC8, 0xC4, 0x19, 0x36, 0x3A, 0xB8, 0xC0


class ClassFile:
    """A class file that is being made. Texts, classes and such stand in its pool once."""

    def __init__(self, name='Main', superclass='java/lang/Object', flags=PUBLIC | SUPER, major=50):
        self.flags, self.major = flags, major
        self.entries, self.places, self.kept = [], 1, {}
        self.interfaces, self.fields, self.methods, self.attributes = [], [], [], []
        self.own, self.superclass = self.class_entry(name), self.class_entry(superclass)

    def left(self):
        """How many places of the pool are left."""
        return MOST_PLACES - self.places

    def add(self, entry, places=1):
        """Puts an entry behind the others, and gives its index."""
        self.entries.append(entry)
        self.places += places
        return self.places - places

    def once(self, entry):
        if entry not in self.kept:
            self.kept[entry] = self.add(entry)
        return self.kept[entry]

    def text(self, text):
        data = text.encode('ascii') if isinstance(text, str) else text
        return self.once(struct.pack('>BH', 1, len(data)) + data)

    def class_entry(self, name):
        return self.once(struct.pack('>BH', 7, self.text(name)))

    def string(self, text):
        return self.once(struct.pack('>BH', 8, self.text(text)))

    def integer(self, number):
        return self.once(struct.pack('>Bi', 3, number))

    def name_and_type(self, name, descriptor):
        return self.once(struct.pack('>BHH', 12, self.text(name), self.text(descriptor)))

    def field_entry(self, owner, name, descriptor):
        return self.once(struct.pack('>BHH', 9, self.class_entry(owner), self.name_and_type(name, descriptor)))

    def implements(self, name):
        self.interfaces.append(self.class_entry(name))

    def attribute(self, name, data):
        return struct.pack('>HI', self.text(name), len(data)) + data

    def field(self, flags, name, descriptor, attributes=()):
        self.fields.append(self.member(flags, name, descriptor, attributes))

    def method(self, flags, name, descriptor, attributes=()):
        self.methods.append(self.member(flags, name, descriptor, attributes))

    def member(self, flags, name, descriptor, attributes):
        head = struct.pack('>HHHH', flags, self.text(name), self.text(descriptor), len(attributes))
        return head + b''.join(attributes)

    def code(self, code, stack=2, local_count=2, rows=()):
        """The attribute Code; a row is the places of start, end and handler, and its class."""
        head = struct.pack('>HHI', stack, local_count, len(code))
        table = struct.pack('>H', len(rows)) + b''.join(struct.pack('>HHHH', *row) for row in rows)
        return self.attribute('Code', head + bytes(code) + table + struct.pack('>H', 0))

    def main(self, code=bytes([RETURN]), stack=2, local_count=2, rows=()):
        """The method that a run begins with."""
        self.method(PUBLIC | STATIC, 'main', '([Ljava/lang/String;)V', [self.code(code, stack, local_count, rows)])

    def bytes(self):
        lists = [self.fields, self.methods, self.attributes]
        head = struct.pack('>IHHH', 0xCAFEBABE, 0, self.major, self.places) + b''.join(self.entries)
        head += struct.pack('>HHHH', self.flags, self.own, self.superclass, len(self.interfaces))
        head += struct.pack(f'>{len(self.interfaces)}H', *self.interfaces)
        made = head + b''.join(struct.pack('>H', len(rows)) + b''.join(rows) for rows in lists)
        assert self.places <= MOST_PLACES and len(made) <= MOST_BYTES, (self.places, len(made))
        return made
