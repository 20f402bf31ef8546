"""Runs the programs beside this file and among the examples with varexj, and compares each configuration with what a Java machine did there.

    python3 run_programs.py VAREXJ [NAME..]
"""

import os
import re
import sys
import tempfile

import programs
from common import called, written

LIMIT = '1000000'


def expected(program):
    """The configurations of a program, each with its projection."""
    with open(program.place('expected'), encoding='ascii') as file:
        blocks = re.split(r'^config (.*)\n', file.read(), flags=re.M)[1:]
    return list(zip(blocks[0::2], blocks[1::2]))


def differences(varexj, program, report):
    """The configurations in which the report says another thing than the Java machine."""
    found = []
    for configuration, text in expected(program):
        said = called([varexj, 'project', report, configuration])
        if said.status != 0 or said.out.decode('ascii') != text:
            found.append(configuration)
    return found


def judged(varexj, program, folder, limit=LIMIT):
    """What is wrong with a program, or nothing."""
    if [configuration for configuration, _ in expected(program)] != list(program.model().configurations()):
        return 'expected has other configurations than the model'
    done = called([varexj, 'run', *program.words(limit), '1'])
    if done.status != 0:
        return done.told()
    found = differences(varexj, program, written(os.path.join(folder, program.name + '.report'), done.out))
    return f'differs at {" ".join(found[:4])} and {max(0, len(found) - 4)} more' if found else None


def main(varexj, names):
    passed, failed = 0, 0
    with tempfile.TemporaryDirectory() as folder:
        for program in programs.programs():
            if names and program.name not in names:
                continue
            wrong = judged(varexj, program, folder)
            if wrong:
                failed += 1
                print(f'{program.name}: {wrong}')
            else:
                passed += 1
    print(f'programs: {passed} passed, {failed} failed')
    return 1 if failed else 0


if __name__ == '__main__':
    sys.exit(main(os.path.abspath(sys.argv[1]), sys.argv[2:]))
