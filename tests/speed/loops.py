"""The programs that measure.py makes: each an assembler source of a class Main, and a feature model."""

HEAD = 'class 0021 Main java/lang/Object'
MAIN = 'method 0009 main ([Ljava/lang/String;)V'


class Loop:
    """A program that never ends, so that a limit says how many rounds it makes.

    groups: how many groups of runs stay apart, each in a loop of its own; options choose among them
    statics: static fields of int that nobody reads
    elements: the length of an array of int that a static field holds
    callers: how many frames stand below the loop
    leaves: how many values the number has that the loop adds to
    """

    def __init__(self, name, groups=1, statics=0, elements=0, callers=0, leaves=1, rounds=20000):
        self.name = name
        self.groups = groups
        self.statics = statics
        self.elements = elements
        self.callers = callers
        self.leaves = leaves
        self.rounds = rounds
        self.options = (max(groups, leaves) - 1).bit_length()

    def model(self):
        return ''.join(f'option O{i} Main O{i}\n' for i in range(self.options))

    def source(self):
        lines = [HEAD, *self.fields(), f'{MAIN} 6 6', *self.array(), *self.descent(), *self.number()]
        lines += self.apart() if self.groups > 1 else self.round(0)
        return '\n'.join(lines + ['end', ''])

    def fields(self):
        yield from (f'field 0009 O{i} Z' for i in range(self.options))
        yield from (f'field 0009 s{i} I' for i in range(self.statics))
        if self.elements:
            yield 'field 0009 a [I'

    def array(self):
        if self.elements:
            yield from (f'ldc int {self.elements}', 'newarray int', 'putstatic Main a [I')

    def descent(self):
        """main calls a method that calls itself so often, and the loop stands in the last call."""
        if self.callers:
            yield from (f'sipush {self.callers}', 'invokestatic Main r (I)V', 'return', 'end', 'method 0009 r (I)V 6 6')
            yield from ('iload_0', 'ifeq B', 'iload_0', 'iconst_1', 'isub', 'invokestatic Main r (I)V', 'return', 'B:')

    def number(self):
        """Local 1 is the number whose bits are the options; local 2 is 0, or that number where the loop adds to it."""
        yield from ('iconst_0', 'istore_1')
        for i in range(self.options):
            yield from ('iload_1', 'iconst_1', 'ishl', f'getstatic Main O{i} Z', 'ior', 'istore_1')
        yield from ('iload_1' if self.leaves > 1 else 'iconst_0', 'istore_2')

    def apart(self):
        yield from ('iload_1', f'tableswitch 0 L0 {" ".join(f"L{i}" for i in range(self.groups))}')
        for i in range(self.groups):
            yield from self.round(i)

    def round(self, i):
        """Eight instructions of arithmetic on int."""
        return [f'L{i}:', 'iload_2', 'iconst_3', 'imul', 'iconst_1', 'iadd', 'istore_2', 'iinc 2 7', f'goto L{i}']


LOOPS = [
    Loop('1 group'),
    Loop('4 groups', groups=4, rounds=10000),
    Loop('16 groups', groups=16, rounds=4000),
    Loop('64 groups', groups=64, rounds=1000),
    Loop('1 group, 1,000 static fields', statics=1000),
    Loop('1 group, an array of 1,000', elements=1000),
    Loop('1 group, an array of 100,000', elements=100000, rounds=5000),
    Loop('1 group, 900 callers', callers=900),
    Loop('16 groups, 900 callers', groups=16, callers=900, rounds=8000),
    Loop('1 group, a value with 256 leaves', leaves=256, rounds=2000),
]


def appends(count):
    """The source of a program that appends so many characters to one StringBuilder, and returns."""
    builder = 'java/lang/StringBuilder'
    lines = [HEAD, f'{MAIN} 3 3', f'new {builder}', 'dup', f'invokespecial {builder} <init> ()V', 'astore_1', 'iconst_0', 'istore_2', 'L:']
    lines += ['aload_1', 'bipush 97', f'invokevirtual {builder} append (C)L{builder};', 'pop']
    lines += ['iinc 2 1', 'iload_2', f'sipush {count}', 'if_icmplt L', 'return', 'end', '']
    return '\n'.join(lines)


def descent_model():
    """Four options, whose 16 configurations go apart in `descents`."""
    return ''.join(f'option O{i} Main O{i}\n' for i in range(4))


def descents(depth, throws):
    """The source of a program that calls a method at a place for each of 16 configurations. The method calls itself so many times; then each call
    returns, or the last one throws, and no call takes it."""
    lines = [HEAD, *(f'field 0009 O{i} Z' for i in range(4)), 'method 0009 r (I)V 6 4', 'iload_0', 'ifeq P']
    lines += ['iload_0', 'iconst_1', 'isub', 'invokestatic Main r (I)V', 'return', 'P:']
    lines += ['aconst_null', 'athrow', 'end'] if throws else ['return', 'end']
    lines += [f'{MAIN} 6 4', 'iconst_0']
    for i in range(4):
        lines += [f'getstatic Main O{i} Z', f'iconst_{i}', 'ishl', 'iadd']
    lines += [f'tableswitch 0 L0 {" ".join(f"L{i}" for i in range(16))}']
    for i in range(16):
        lines += [f'L{i}:', f'sipush {depth}', 'invokestatic Main r (I)V', 'return']
    return '\n'.join(lines + ['end', ''])
