"""Class files that are as dear to read, link and start as one file can be, and folders of many classes."""

import struct

import class_files
import colliding
from class_files import (
    ACONST_NULL, ALOAD, ASTORE, CHECKCAST, GETSTATIC, GOTO, GOTO_W, ICONST_0, IFEQ, INVOKESTATIC, ISTORE, LOOKUPSWITCH, NATIVE, NOP, POP, PUBLIC, RETURN, STATIC,
    TABLESWITCH, WIDE, ClassFile)

MOST_CODE = 65535
MOST_TEXT = 65535
MOST_MEMBERS = 65535
MOST_LOCALS = 65535
MOST_CLASSES = 1024
# How many methods with the longest code a file has room for.
LONG_METHODS = 15
# How many texts, strings and units fall together.
COLLIDING_TEXTS = 60000
COLLIDING_STRINGS = 30000
COLLIDING_UNITS = 300000
# How many entries share a long text, where as many as there may be would take too long.
SHARERS = 20000
INTERFACE_FLAGS = class_files.INTERFACE | class_files.ABSTRACT | PUBLIC


def started(code=bytes([RETURN])):
    """A class that can be run, whose main returns at once."""
    made = ClassFile()
    made.main(code)
    return made


def many_texts():
    made = started()
    for number in range(made.left()):
        made.text(f'{number:012}')
    return made


def classes_of_one_long_name():
    made = started()
    name = made.text('a' * MOST_TEXT)
    for _place in range(made.left()):
        made.add(struct.pack('>BH', 7, name))
    return made


def types_of_one_long_descriptor():
    made = started()
    name, descriptor = made.text('f'), made.text('(L' + 'a' * (MOST_TEXT - 5) + ';)V')
    for _place in range(SHARERS):
        made.add(struct.pack('>BHH', 12, name, descriptor))
    return made


def methods_of_one_long_descriptor():
    made = started()
    member = made.name_and_type('f', '(L' + 'a' * (MOST_TEXT - 5) + ';)V')
    for _place in range(SHARERS):
        made.add(struct.pack('>BHH', 10, made.own, member))
    return made


def fields_of_one_long_name():
    made = started()
    member = made.name_and_type('a' * MOST_TEXT, 'I')
    for _place in range(SHARERS):
        made.add(struct.pack('>BHH', 9, made.own, member))
    return made


def method_types_of_one_long_descriptor():
    made = started()
    made.major = 51
    descriptor = made.text('(L' + 'a' * (MOST_TEXT - 5) + ';)V')
    for _place in range(SHARERS):
        made.add(struct.pack('>BH', 16, descriptor))
    return made


def many_strings():
    made = started()
    for number in range(made.left() // 2):
        made.string(f'{number:024}')
    return made


def colliding_texts():
    """Texts that fall together where a table of names has no key."""
    made = started()
    for name in colliding.names(COLLIDING_TEXTS):
        made.text(name)
    return made


def colliding_strings():
    """The same of strings, by their units."""
    made = started()
    for name in colliding.names(COLLIDING_STRINGS, 2, ((0, 8),)):
        made.string(name)
    return made


def colliding_units():
    """Strings whose units fall together where the table of texts has no key."""
    made = started()
    for text in colliding.texts(COLLIDING_UNITS, MOST_TEXT // 3):
        made.string(text.encode())
    return made


def many_interfaces():
    made = started()
    for _number in range(MOST_MEMBERS):
        made.implements('java/lang/Runnable')
    return made


def name_pairs(front, back):
    """The names and descriptors of as many members as there may be, from few texts."""
    return ((f'n{number // 256:03}', f'{front}Lt{number % 256:03};{back}') for number in range(MOST_MEMBERS))


def many_static_fields():
    made = started()
    for name, descriptor in name_pairs('', ''):
        made.field(STATIC, name, descriptor)
    return made


def many_instance_fields():
    made = started()
    for name, descriptor in name_pairs('', ''):
        made.field(0, name, descriptor)
    return made


def many_native_methods():
    made = started()
    for name, descriptor in list(name_pairs('(', ')V'))[1:]:
        made.method(NATIVE, name, descriptor)
    return made


def many_methods():
    """Methods with one instruction each."""
    made = started()
    for name, descriptor in list(name_pairs('(', ')V'))[:38000]:
        made.method(STATIC, name, descriptor, [made.code(bytes([RETURN]))])
    return made


def many_constant_values():
    made = started()
    long = made.add(struct.pack('>Bq', 5, 7), 2)
    indices = {'J': long, 'Ljava/lang/String;': made.string('seven'), **dict.fromkeys('ISCBZ', made.integer(7))}
    values = {kind: made.attribute('ConstantValue', struct.pack('>H', index)) for kind, index in indices.items()}
    for number in range(8500):
        for kind, value in values.items():
            made.field(STATIC, f'n{number:04}', kind, [value])
    return made


def constant_values_of_one_long_text():
    made = started()
    value = made.attribute('ConstantValue', struct.pack('>H', made.string('a' * MOST_TEXT)))
    for number in range(38000):
        made.field(STATIC, f'n{number:05}', 'Ljava/lang/String;', [value])
    return made


def many_attributes():
    """Attributes that are passed over: of the class, of a field and of a method's code."""
    made = started()
    other = made.attribute('Other', b'')
    made.attributes = [other] * MOST_MEMBERS
    made.field(STATIC, 'f', 'I', [other] * MOST_MEMBERS)
    made.method(NATIVE, 'g', '()V', [other] * 40000)
    return made


def one_long_attribute():
    """A file of just the greatest size."""
    made = started()
    made.text('Other')
    made.attributes = [made.attribute('Other', bytes(class_files.MOST_BYTES - len(made.bytes()) - 6))]
    return made


def longest_descriptors():
    """Methods of 255 arguments, each with a descriptor of its own."""
    made = started()
    for number in range(1500):
        made.method(NATIVE | STATIC, 'f', '(' + f'La{number};' + 'Lb;' * 200 + 'I' * 54 + ')V')
    return made


def with_long_methods(code, rows=()):
    """As many methods with this code as the file has room for."""
    made = started()
    for number in range(LONG_METHODS):
        made.method(STATIC, f'f{number}', '()V', [made.code(code, rows=rows)])
    return made


def long_code():
    return with_long_methods(bytes([NOP] * (MOST_CODE - 1) + [RETURN]))


def jumps_to_the_end():
    """Jumps that lead to the last instruction, or to the middle where that is too far."""
    last, middle = MOST_CODE - 1, 32766
    code = bytearray()
    while len(code) + 3 <= last:
        # A jump of two bytes goes no further than 32,767 places.
        target = last if last - len(code) <= 32767 else middle
        code += struct.pack('>Bh', IFEQ, target - len(code))
    code += bytes([NOP] * (last - len(code)) + [RETURN])
    return with_long_methods(bytes(code))


def padded(code):
    return code + bytes(-len(code) % 4)


def table_switch():
    """A switch with 8,190 targets, all the last instruction of 32,000."""
    last = MOST_CODE - 1
    code = padded(bytes([ICONST_0, TABLESWITCH]))
    entries = 8190
    code += struct.pack('>iii', last - 1, 0, entries - 1) + struct.pack('>i', last - 1) * entries
    return with_long_methods(code + bytes([NOP] * (last - len(code)) + [RETURN]))


def lookup_switch():
    last = MOST_CODE - 1
    code = padded(bytes([ICONST_0, LOOKUPSWITCH]))
    pairs = 4090
    code += struct.pack('>ii', last - 1, pairs) + b''.join(struct.pack('>ii', key, last - 1) for key in range(pairs))
    return with_long_methods(code + bytes([NOP] * (last - len(code)) + [RETURN]))


def many_catch_rows():
    """Catch rows at the end of a long code."""
    made = started()
    code = bytes([NOP] * (MOST_CODE - 1) + [RETURN])
    row = (MOST_CODE - 3, MOST_CODE, MOST_CODE - 1, 0)
    made.method(STATIC, 'f', '()V', [made.code(code, rows=[row] * MOST_MEMBERS)])
    made.method(STATIC, 'g', '()V', [made.code(code, rows=[row] * 48000)])
    return made


def jumps_that_run():
    """A main of 65,535 bytes of jumps, each to the next one."""
    jump = struct.pack('>Bh', GOTO, 3)
    return started(jump * ((MOST_CODE - 1) // 3) + bytes([RETURN] * (1 + (MOST_CODE - 1) % 3)))


def jumps_back():
    """A jump to the last of many, each of which leads to the one in front of it: a sweep from the front reaches one more."""
    jumps = (MOST_CODE - 6) // 3
    code = struct.pack('>BiB', GOTO_W, 6 + 3 * (jumps - 1), RETURN) + struct.pack('>Bh', GOTO, -1) + struct.pack('>Bh', GOTO, -3) * (jumps - 1)
    return started(code)


def many_locals():
    """A store at every second instruction, each to another local variable."""
    made = ClassFile()
    stores = b''.join(struct.pack('>BBBH', ICONST_0, WIDE, ISTORE, 5 * number) for number in range(13000))
    made.main(stores + bytes([RETURN]), 1, MOST_LOCALS)
    return made


def last_local():
    """A store to the last of the local variables, which stays through all that follow."""
    made = ClassFile()
    made.main(struct.pack('>BBBH', ICONST_0, WIDE, ISTORE, MOST_LOCALS - 1) + bytes([NOP] * (MOST_CODE - 6) + [RETURN]), 1, MOST_LOCALS)
    return made


def copies_in_a_loop():
    """A loop that copies each local variable to the next one, the last first, so that a type goes one further each time round."""
    count = 500
    made = ClassFile()
    nulls = b''.join(struct.pack('>BBBH', ACONST_NULL, WIDE, ASTORE, number) for number in range(1, count + 1))
    copies = b''.join(struct.pack('>BBHBBH', WIDE, ALOAD, number - 1, WIDE, ASTORE, number) for number in range(count, 0, -1))
    made.main(nulls + copies + struct.pack('>Bi', GOTO_W, -len(copies)), 1, count + 1)
    return made


def native_methods_of_one_long_descriptor():
    made = started()
    descriptor = '(L' + 'a' * (MOST_TEXT - 5) + ';)V'
    for number in range(37000):
        made.method(NATIVE | STATIC, f'f{number}', descriptor)
    return made


def with_long_bodies(made, instruction):
    """Methods that are full of one instruction behind a push of null, after which the stack is empty."""
    code = (bytes([ACONST_NULL]) + instruction) * (40000 // (1 + len(instruction)))
    body = made.code(code + bytes([RETURN]))
    for number in range(LONG_METHODS):
        made.method(STATIC, f'f{number}', '()V', [body])
    made.main()
    return made


def calls_of_one_long_descriptor(length=3000):
    made = ClassFile()
    descriptor = '(L' + 'a' * length + ';)V'
    called = made.add(struct.pack('>BHH', 10, made.own, made.name_and_type('g', descriptor)))
    made.method(STATIC | NATIVE, 'g', descriptor)
    return with_long_bodies(made, struct.pack('>BH', INVOKESTATIC, called))


def calls_of_the_last_method(methods=20000):
    """Calls of the last one of many methods, which differ in their names alone."""
    made = ClassFile()
    descriptor = '(Ljava/lang/Object;)V'
    called = made.add(struct.pack('>BHH', 10, made.own, made.name_and_type(f'g{methods - 1}', descriptor)))
    for number in range(methods):
        made.method(STATIC | NATIVE, f'g{number}', descriptor)
    return with_long_bodies(made, struct.pack('>BH', INVOKESTATIC, called))


def calls_of_methods_of_one_long_descriptor(methods=15000, length=10000):
    """A call of each of many methods, which differ in their names alone."""
    made = ClassFile()
    descriptor = '(L' + 'a' * length + ';)V'
    code = b''
    for number in range(methods):
        made.method(STATIC | NATIVE, f'g{number}', descriptor)
        called = made.add(struct.pack('>BHH', 10, made.own, made.name_and_type(f'g{number}', descriptor)))
        code += struct.pack('>BBH', ACONST_NULL, INVOKESTATIC, called)
    made.main(code + bytes([RETURN]))
    return made


def casts_to_one_long_name(length=6000):
    made = ClassFile()
    return with_long_bodies(made, struct.pack('>BHB', CHECKCAST, made.class_entry('a' * length), POP))


def fields_of_one_long_name_read(length=12000):
    made = ClassFile()
    made.field(STATIC, 'a' * length, 'I')
    return with_long_bodies(made, struct.pack('>BBHB', POP, GETSTATIC, made.field_entry('Main', 'a' * length, 'I'), POP))


def catch_rows_of_own_starts(rows=4000):
    """Catch rows that each begin at an instruction of their own and cover all behind it."""
    made = started()
    code = bytes([NOP] * (MOST_CODE - 1) + [RETURN])
    made.method(STATIC, 'f', '()V', [made.code(code, rows=[(start, MOST_CODE, MOST_CODE - 1, 0) for start in range(rows)])])
    return made


# Those that are dear to verify.
VERIFIED = {
    'jumps back': jumps_back, 'many locals': many_locals, 'the last local': last_local, 'a loop of 500 copies': copies_in_a_loop,
    '150,000 calls of a descriptor of 3,000 bytes': calls_of_one_long_descriptor,
    '150,000 calls in a class of 20,000 methods': calls_of_the_last_method,
    'calls of 15,000 methods of one descriptor of 10,000 bytes': calls_of_methods_of_one_long_descriptor, '120,000 casts to a name of 6,000 bytes': casts_to_one_long_name,
    '100,000 reads of a field with a name of 12,000 bytes': fields_of_one_long_name_read, '4,000 catch rows of own starts': catch_rows_of_own_starts}

FILES = {
    'texts': many_texts, 'classes of one long name': classes_of_one_long_name,
    'names and types of one long descriptor': types_of_one_long_descriptor, 'methods of one long descriptor': methods_of_one_long_descriptor,
    'fields of one long name': fields_of_one_long_name, 'method types of one long descriptor': method_types_of_one_long_descriptor,
    'strings': many_strings, 'interfaces': many_interfaces, 'static fields': many_static_fields, 'instance fields': many_instance_fields,
    'native methods': many_native_methods, '37,000 native methods of one long descriptor': native_methods_of_one_long_descriptor, 'methods': many_methods, 'constant values': many_constant_values, 'constant values of one long text': constant_values_of_one_long_text,
    'attributes': many_attributes, 'one long attribute': one_long_attribute,
    'descriptors of 255 arguments': longest_descriptors, 'long code': long_code, 'jumps to the end': jumps_to_the_end,
    'texts that fall together': colliding_texts, 'strings that fall together': colliding_strings, 'units that fall together': colliding_units,
    'table switches': table_switch, 'lookup switches': lookup_switch, 'catch rows': many_catch_rows, 'jumps that run': jumps_that_run}


def reading_main(superclass='Top', field='x'):
    """A main that reads a field of Main again and again."""
    made = ClassFile(superclass=superclass)
    index = made.field_entry('Main', field, 'I')
    made.main(struct.pack('>BHBBh', GETSTATIC, index, POP, GOTO, -4))
    return made


def top(field='x'):
    """The class that has the field."""
    made = ClassFile('Top')
    made.field(STATIC, field, 'I')
    return made


def interface(name, above=()):
    made = ClassFile(name, flags=INTERFACE_FLAGS)
    for other in above:
        made.implements(other)
    return made


def superclass_chain():
    """Main below 1,022 classes below Top."""
    names = [f'C{number:04}' for number in range(MOST_CLASSES - 2)] + ['Top']
    made = {'Main': reading_main(names[0]), 'Top': top()}
    for below, above in zip(names, names[1:]):
        made[below] = ClassFile(below, superclass=above)
    return made


def superclass_chain_of_fields(length=10000):
    """The same, where each class has a field of its own, and the one that is read has a long name."""
    field = 'x' * length
    made = superclass_chain()
    for between in made.values():
        between.field(STATIC, 'y', 'I')
    made['Main'], made['Top'] = reading_main('C0000', field), top(field)
    return made


def interface_chain():
    """1,022 interfaces in one chain above Main, and Top."""
    names = [f'I{number:04}' for number in range(MOST_CLASSES - 2)]
    made = {'Main': reading_main(), 'Top': top()}
    made['Main'].implements(names[0])
    for name, above in zip(names, [*names[1:], None]):
        made[name] = interface(name, [above] if above else [])
    return made


def diamonds(layers):
    """Layers of two interfaces, each below both of the next layer, above Main; and Top."""
    made = {'Main': reading_main(), 'Top': top()}
    below = made['Main']
    for other in (f'A{0:04}', f'B{0:04}'):
        below.implements(other)
    for layer in range(layers):
        above = [f'A{layer + 1:04}', f'B{layer + 1:04}'] if layer + 1 < layers else []
        for letter in 'AB':
            made[f'{letter}{layer:04}'] = interface(f'{letter}{layer:04}', above)
    return made


def all_diamonds():
    return diamonds((MOST_CLASSES - 2) // 2)


def diamonds_and_a_blocking_interface():
    """As above, where the question is whether an interface with an initialiser and a default method is above Main."""
    made = diamonds((MOST_CLASSES - 3) // 2)
    blocking = ClassFile('Z', flags=INTERFACE_FLAGS, major=52)
    blocking.method(STATIC, '<clinit>', '()V', [blocking.code(bytes([RETURN]))])
    blocking.method(PUBLIC, 'f', '()V', [blocking.code(bytes([RETURN]))])
    made['Z'] = blocking
    return made


def cycle_at_the_end():
    """A chain of superclasses whose last two classes are above each other, and Main."""
    names = [f'C{number:04}' for number in range(MOST_CLASSES - 1)]
    made = {'Main': started()}
    for below, above in zip(names, [*names[1:], names[-2]]):
        made[below] = ClassFile(below, superclass=above)
    return made


def long_lists_and_a_cycle():
    """Interfaces that each name the next one 1,000 times, in a chain whose end is a cycle."""
    names = [f'I{number:04}' for number in range(MOST_CLASSES - 1)]
    made = {'Main': started()}
    for below, above in zip(names, [*names[1:], names[-2]]):
        made[below] = interface(below, [above] * 1000)
    return made


FOLDERS = {
    'a chain of superclasses': superclass_chain, 'a chain of superclasses with fields': superclass_chain_of_fields, 'a chain of interfaces': interface_chain, 'interfaces in diamonds': all_diamonds,
    'interfaces in diamonds, and a blocking one': diamonds_and_a_blocking_interface, 'a cycle at the end of a chain': cycle_at_the_end,
    'long lists of interfaces, and a cycle': long_lists_and_a_cycle}


# Kinds of class files of which a folder has many, and how many.
MANY = ('texts', 'static fields', 'methods', 'constant values', 'jumps to the end', 'catch rows')
MANY_FILES = 32


class Renamed:
    """A class file with another name of four letters."""

    def __init__(self, data, name):
        self.data, self.name = data, name

    def bytes(self):
        own, other = (struct.pack('>BH', 1, 4) + name for name in (b'Main', self.name.encode()))
        assert self.data.count(own) == 1
        return self.data.replace(own, other)


def folder_of(kind):
    """Main, which returns at once, and many files that are as dear as those of a kind."""
    data = FILES[kind]().bytes()
    names = [f'D{number:03}' for number in range(MANY_FILES)]
    return {'Main': started(), **{name: Renamed(data, name) for name in names}}
