"""Assembler sources of programs in which few attempts are dear, each with its model and its limit."""

from typing import NamedTuple

FRONT = 'class 0021 Main java/lang/Object\n'
MAIN = 'method 0009 main ([Ljava/lang/String;)V'
OUT = 'getstatic java/lang/System out Ljava/io/PrintStream;\n'
PRINT = 'invokevirtual java/io/PrintStream println (I)V\n'
CONCAT = 'invokevirtual java/lang/String concat (Ljava/lang/String;)Ljava/lang/String;\n'
FRAMES = 1000


class Program(NamedTuple):
    """A program of one class, beside which so many more classes without members may stand."""
    source: str
    limit: int
    model: str = ''
    more_classes: int = 0


def loop_under_operands(operands=4000):
    """Attempts on top of so many operands."""
    pushes = 'iconst_0\n' * operands
    return Program(f'{FRONT}{MAIN} {operands} 1\n{pushes}Again:\ngoto Again\nend\n', 2 * operands)


def frames_of_many_locals(count=1024):
    """A method with so many local variables that calls itself until the stack overflows."""
    call = 'invokestatic Main f ()V\nreturn\nend\n'
    return Program(f'{FRONT}{MAIN} 0 1\n{call}method 0009 f ()V 0 {count}\n{call}', 10000)


def long_text(times):
    """Puts a text of 2 to the power of `times` units into local 1."""
    return 'ldc string "a"\nastore_1\n' + f'aload_1\naload_1\n{CONCAT}astore_1\n' * times


def text_looked_for(times=15):
    """Half of a text of one unit, and another unit, are looked for in the text."""
    half = f'aload_1\nldc_w int {1 << (times - 1)}\ninvokevirtual java/lang/String substring (I)Ljava/lang/String;\n'
    look = f'ldc string "b"\n{CONCAT}invokevirtual java/lang/String indexOf (Ljava/lang/String;)I\n'
    return Program(f'{FRONT}{MAIN} 4 2\n{long_text(times)}{OUT}aload_1\n{half}{look}{PRINT}return\nend\n', 1000)


def ends_of_a_text(times=18, many=10):
    """Ends of a long text, each a text of its own."""
    one = 'aload_1\niload_2\ninvokevirtual java/lang/String substring (I)Ljava/lang/String;\npop\niinc 2 1\n'
    return Program(f'{FRONT}{MAIN} 2 3\n{long_text(times)}iconst_0\nistore_2\n{one * many}return\nend\n', 1000)


def number_of_options(options):
    """The fields of so many options, a model, and a main that puts the number whose bits they are into local 1."""
    fields = ''.join(f'field 0009 o{number} Z\n' for number in range(options))
    model = ''.join(f'option o{number} Main o{number}\n' for number in range(options))
    bits = ''.join(f'getstatic Main o{number} Z\nifeq L{number}\niload_1\nldc_w int {1 << number}\nior\nistore_1\nL{number}:\n' for number in range(options))
    return f'{FRONT}{fields}{MAIN} 3 2\niconst_0\nistore_1\n{bits}', model


def sums_of_many_values(options=10, sums=4):
    """Sums of two numbers that each have a value for each configuration."""
    front, model = number_of_options(options)
    return Program(front + 'iload_1\niload_1\niadd\nistore_1\n' * sums + 'return\nend\n', 1000, model)


def printed_values(options=10):
    """A number that has a value for each configuration, printed."""
    front, model = number_of_options(options)
    return Program(f'{front}{OUT}iload_1\n{PRINT}return\nend\n', 1000, model)


def thrown_through_catch_rows(rows=4000, more_classes=0):
    """An exception that leaves frames whose method has many catch rows, none of which takes it."""
    catches = 'catch A B B java/lang/ClassCastException\n' * rows
    body = ('A:\niload_0\nifne Deeper\naconst_null\nathrow\nDeeper:\niload_0\niconst_1\nisub\ninvokestatic Main f (I)V\nreturn\n'
            f'B:\nathrow\n{catches}end\n')
    source = f'{FRONT}{MAIN} 1 1\nsipush {FRAMES}\ninvokestatic Main f (I)V\nreturn\nend\nmethod 0009 f (I)V 2 1\n{body}'
    return Program(source, 100000, more_classes=more_classes)


def thrown_among_many_classes():
    """The same in a program of many classes."""
    return thrown_through_catch_rows(more_classes=900)


def calls_in_a_large_class(methods=20000, calls=2500):
    """Calls of the last method of a class that has many."""
    loop = f'sipush {calls}\nistore_1\nAgain:\ninvokestatic Main m{methods - 1} ()V\niinc 1 -1\niload_1\nifne Again\nreturn\nend\n'
    others = ''.join(f'method 0009 m{number} ()V 0 0\nreturn\nend\n' for number in range(methods))
    return Program(f'{FRONT}{MAIN} 1 2\n{loop}{others}', 100000)


PROGRAMS = {
    'a loop under 4,000 operands': loop_under_operands, 'frames of 1,024 local variables': frames_of_many_locals,
    'a text looked for in one of 32,768 units': text_looked_for, 'ends of a text of 262,144 units': ends_of_a_text,
    'sums of 1,024 values': sums_of_many_values, 'a print of 1,024 values': printed_values,
    'an exception through 4,000,000 catch rows': thrown_through_catch_rows,
    'the same among 901 classes': thrown_among_many_classes,
    'calls in a class of 20,000 methods': calls_in_a_large_class}
