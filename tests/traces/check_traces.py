"""Compares traces with the stack traces of a Java machine, and those of other ends with replays.

    python3 check_traces.py VAREXJ

Each file of the folder own has what a Java machine printed of a class of classes, and each file of the folder stacks what it printed of a program of ../programs or of the examples at each
configuration that ends by an exception. The text of `trace` is the same, but for three things that the Java machine has of its own: frames inside of the library, messages that a later release
writes into what the machine raises itself, and what it appends to the names of modules. Where a run of one of those programs ends otherwise, the trace has the end and the lines of its replay.
"""

import os
import re
import sys

HERE = os.path.dirname(os.path.abspath(__file__))
sys.path.insert(0, os.path.join(HERE, '..', 'programs'))

import programs
from common import called

LIMIT = '1000000'

# what a Java machine raises itself has messages of its own
RAISED = ('java.lang.NullPointerException', 'java.lang.ArrayIndexOutOfBoundsException', 'java.lang.StringIndexOutOfBoundsException', 'java.lang.IndexOutOfBoundsException',
          'java.lang.ClassCastException', 'java.lang.ArrayStoreException', 'java.lang.NegativeArraySizeException', 'java.lang.NumberFormatException')


def plain(text):
    """The text without frames of the library, and without messages of what a machine raises."""
    lines = []
    for line in text.decode('utf-8').split('\n'):
        if re.match(r'\tat (java\.base/)?(java|jdk|sun)\.', line):
            continue
        for name in RAISED:
            line = re.sub(rf'({re.escape(name)}): .*', r'\1', line)
        lines.append(line)
    return '\n'.join(lines)


def own(varexj):
    for name in sorted(os.listdir(os.path.join(HERE, 'own'))):
        with open(os.path.join(HERE, 'own', name), 'rb') as file:
            yield name, file.read(), called([varexj, 'trace', 'classes', 'model', name, LIMIT, '-'], HERE)


def stacks(program):
    """For each configuration that ends by an exception its stack trace."""
    place = os.path.join(HERE, 'stacks', program.name)
    if os.path.exists(place):
        with open(place, 'rb') as file:
            for part in re.split(rb'^config ', file.read(), flags=re.M)[1:]:
                configuration, text = part.split(b'\n', 1)
                yield configuration.decode('ascii'), text


def of_programs(varexj):
    for program in programs.programs():
        for configuration, text in stacks(program):
            yield f'{program.name} at {configuration}', text, called([varexj, 'trace', *program.words(LIMIT), configuration])


def replayed(replay):
    """The end of a replay, and the line of each of its frames."""
    text = replay.decode('ascii')
    end = re.search(r'^end (.*)$', text, flags=re.M).group(1)
    return end, [line for _, line in re.findall(r'^at (\S*) (\S+)$', text, flags=re.M)]


def told(trace):
    """The first line of a trace, and the line of each of its frames."""
    first, *lines = trace.decode('utf-8').splitlines()
    found = [re.match(r'\tat [^(]*\((?:[^()]*?)(?::(\d+))?\)$', line) for line in lines]
    return first, [match.group(1) or '-' for match in found]


def other_ends(varexj):
    """Runs that are cut off: how many were compared, and how many differ."""
    compared, different = 0, 0
    for program in programs.programs():
        words = program.words('2000')
        for configuration in list(program.model().configurations())[:4]:
            replay = called([varexj, 'replay', *words, configuration]).out
            trace = called([varexj, 'trace', *words, configuration]).out
            if b'\nend uncaught ' in replay:
                continue
            compared += 1
            if replayed(replay)[0] != told(trace)[0] or len(replayed(replay)[1]) != len(told(trace)[1]):
                different += 1
                print(f'{program.name} at {configuration}: not the frames of its replay')
    return compared, different


def main(varexj):
    compared, different = 0, 0
    for name, expected, said in [*own(varexj), *of_programs(varexj)]:
        compared += 1
        if said.status != 0 or plain(said.out) != plain(expected):
            different += 1
            print(f'{name}: another trace')
            if different <= 3:
                print(plain(expected) + '--\n' + plain(said.out), end='')
    others, other = other_ends(varexj)
    print(f'traces: {compared} stack traces of a Java machine compared, {different} differ; {others} other ends compared with replays, {other} differ')
    return 1 if different or other or not compared or not others else 0


if __name__ == '__main__':
    sys.exit(main(os.path.abspath(sys.argv[1])))
