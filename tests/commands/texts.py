"""Texts and class files, each with the line or the place, and the reason, for which it is refused."""

import os

HERE = os.path.dirname(os.path.abspath(__file__))


def read(path):
    with open(os.path.join(HERE, 'files', path), 'rb') as file:
        return file.read()


# A class without fields and methods, and one with a field and a method that has code.
SMALLEST, OPTION = read('o/Main.class'), read('a/Main.class')

# Sources, and the class files that they give.
ASSEMBLED = [
    (b'class 0021 Main java/lang/Object', SMALLEST),
    (b'class 0021 Main java/lang/Object\n', SMALLEST),
    (
        b'class 0021 Main java/lang/Object\nfield 0009 A Z\nmethod 0009 main ([Ljava/lang/String;)V 2 1\ngetstatic java/lang/System out Ljava/io/PrintStream;\ngetstatic Main A Z\ninvokevirtual java/io/PrintStream println (I)V\nreturn\nend\n',
        OPTION,
    ),
]

# Sources. The least line is named, with its least reason.
SOURCES = [
    (b'class 0021 A B\nfeld 0009 A Z\nclass', 2, 1),
    (b'class 0021 A', 1, 2),
    (b'version 70000', 1, 3),
    (b'class 0021 A B\nmethod 0009 f ()V 0 0\ngoto L\nbipush 200\nend', 3, 4),
    (b'class 0021 A B\nmethod 0009 f ()V 0 0\nL:\nL:\nreturn\nend', 4, 4),
    (b'', 1, 5),
    (b'class 0021 A B\n\nmethod 0009 f ()V 0 0\nreturn\n', 5, 5),
    (b'class 0021 A B\nreturn', 2, 5),
    (b'class 0021 A B\nfield 0009 S Ljava/lang/String; string x', 2, 6),
    (b'class 0021 [I B', 1, 8),
    (b'class 0021 A B\nfield 0009 S Z\nfield 0009 S Z', 3, 8),
    (b'class 0021 A B\nmethod 0009 f ()V 0 0\nend', 3, 8),
    # A method with a table of 16,400 places.
    (b'class 0021 A B\nmethod 0009 f ()V 1 0\nL:\niconst_0\ntableswitch 0 L' + b' L' * 16_400 + b'\nend', 6, 7),
]

# Lines of sources, each alone, with the reason.
LINES_OF_SOURCES = [
    (b'clas 0021 Main java/lang/Object', 1),
    (b':', 1),
    (b'fload 3', 1),
    (b'iload 3 \xc3', 1),
    (b'class 021 Main java/lang/Object', 2),
    (b'iinc 300', 2),
    (b'bipush 0x3', 2),
    (b'ldc string', 2),
    (b'newarray float', 2),
    (b'wide iadd', 2),
    (b'bipush 128', 3),
    (b'tableswitch 2147483647 L L L', 3),
]

# Lines of models behind that of an option, with the reason; 0 where it is not refused.
LINES_OF_MODELS = [
    (b'rule A & !A', 0),
    (b'rule(A)', 1),
    (b'option B Main', 1),
    (b'rule A \x7f', 1),
    (b'option true', 2),
    (b'option B Main A', 3),
    (b'rule A &', 4),
    (b'rule 9', 4),
    (b'rule C', 5),
    (b'rule ' + b'!' * 256 + b'true', 0),
    (b'rule ' + b'!' * 257 + b'true', 4),
]

# A model with one byte more than it may have, and one of which a part would have more.
LARGEST = 1_048_576
TOO_LARGE = b'#' * (LARGEST + 1)
NEARLY_TOO_LARGE = b'#' * (LARGEST - 16) + b'\noption A\n'

# Models in the format of clauses.
CLAUSES = [
    (b'p cnf 65 0', 1, 6),
    (b'p cnf 65 x', 1, 6),
    (b'', 1, 7),
    (b'1 0\np cnf 1 1\n', 1, 7),
    (b'x\np cnf 1 1\n', 1, 8),
    (b'c 1 A\nc 1 B\np cnf 1 0\n', 2, 3),
    (b'p cnf 1 1\n2 0\n', 2, 8),
    (b'p cnf 1 1\n1 0\n-0\n', 3, 9),
    (b'p cnf 1 1\n1\n', 3, 9),
    (b'p cnf 1 0\np cnf 1 0\n', 2, 7),
]

# Reports, with the first bad line: nothing, too many options, a node of equal parts, another numbering, a line behind the last, and a report that is cut.
REPORTS = [
    (b'', 1),
    (b'varexj report 1\noptions 65\n', 2),
    (b'varexj report 1\noptions 1\noption A\nlimit 100\nrounds 4\nnode 2 0 1 1\n', 6),
    (b'varexj report 1\noptions 1\noption A\nlimit 100\nrounds 4\nnode 2 0 0 1\nnode 3 0 1 0\nout 3 0\\0a\n', 8),
    (b'varexj report 1\noptions 0\nlimit 1\nrounds 0\nend 1 unfinished\ndone\n\n', 7),
    (read('report')[:15], 1),
    (read('report')[:-5], 11),
]

# The smallest class with one byte changed: its place and its value, and the place and the reason.
CHANGED = [
    (0, 0, 0, 1),
    (7, 53, 6, 2),
    (16, 0, 13, 7),
    (12, 3, 10, 6),
    (12, 9, 10, 5),
    (47, 0, 46, 5),
]


def changed(place, value):
    return SMALLEST[:place] + bytes([value]) + SMALLEST[place + 1:]


# Class files: those, one with a byte more, and each that is cut.
CLASSES = [
    *((changed(place, value), at, reason) for place, value, at, reason in CHANGED),
    (SMALLEST + bytes(1), 56, 13),
    *((whole[:count], count, 3) for whole in (SMALLEST, OPTION) for count in range(len(whole))),
]
