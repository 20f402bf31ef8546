"""Runs the programs beside this file with varexj over the class library, and compares each configuration with what a Java machine did there over its own.

    python3 run_real.py VAREXJ [NAME..]

The sums beside the programs say that the class files are those of the sources. Each program is run once and its report is compared at each configuration; at
some of them, which are spread, a replay says the same as the report.
"""

import itertools
import os
import sys
import tempfile

import real
import run_programs

LIMIT = '10000000'
REPLAYED = 3


def replays_differ(varexj, program, room):
    """The configurations among those that are replayed at which the replay says another thing than the Java machine."""
    whole = run_programs.expected(program)
    step = max(1, (len(whole) - 1) // (REPLAYED - 1))
    for configuration, text in itertools.islice(whole[::step], REPLAYED):
        said = run_programs.called([varexj, 'replay', *program.words(LIMIT), configuration])
        if said.status != 0 or not said.out.decode('ascii').startswith('varexj replay 1\n' + text):
            yield configuration


def judged(varexj, program, room):
    """What is wrong with a program, or nothing."""
    with open(program.place('sum')) as file:
        if file.read().strip() != program.sum():
            return 'the class files are not those of the sources; ask_real.py makes them'
    program.add_library(room)
    wrong = run_programs.judged(varexj, program, room, LIMIT)
    if wrong:
        return wrong
    found = list(replays_differ(varexj, program, room))
    return f'replays differ at {" ".join(found)}' if found else None


def main(varexj, names):
    passed, failed, configurations = 0, 0, 0
    for program in real.real_programs():
        if names and program.name not in names:
            continue
        with tempfile.TemporaryDirectory() as room:
            wrong = judged(varexj, program, room)
        if wrong:
            failed += 1
            print(f'{program.name}: {wrong}')
        else:
            passed += 1
            configurations += len(run_programs.expected(program))
    print(f'programs over the library: {passed} passed in {configurations} configurations, {failed} failed')
    return 1 if failed or not passed else 0


sys.exit(main(os.path.abspath(sys.argv[1]), sys.argv[2:]))
