"""Runs the programs beside this file with varexj, from the sources of the assembler to the text of a report.

    python3 run_engine.py VAREXJ [FOLDER..]

A folder has the source of the class `Main` and of others beside it, and the `model` of its options. Where it has `report`, a run has to write just that
text; where it has `says`, a report that says the same of each configuration: the same output and the same end. Limit and version are those of that text.
What differs is named; the last line is `engine: N passed, M failed`.
"""

import glob
import itertools
import os
import sys
import tempfile

HERE = os.path.dirname(os.path.abspath(__file__))
sys.path[:0] = [os.path.dirname(HERE), os.path.join(os.path.dirname(HERE), 'people')]

import check_people
from common import assembled, called


def said(report):
    """What a report says of each configuration: its output, as bytes on streams, and its end."""
    options, nodes, _, ends = check_people.read_report(report)
    for on in itertools.product([False, True], repeat=len(options)):
        pieces = (line.split(' ', 2) for line in report.splitlines() if line.startswith(('out ', 'err ')))
        printed = [(stream, check_people.bytes_of(text)) for stream, node, text in pieces if check_people.holds(nodes, int(node), on)]
        output = [(stream, b''.join(text for _, text in run)) for stream, run in itertools.groupby(printed, lambda piece: piece[0])]
        place = check_people.first_end(nodes, ends, on)
        yield on, None if place is None else (output, ends[place][1])


def judged(varexj, program):
    """What is wrong with a program's run, or nothing."""
    exact = os.path.join(program, 'report')
    with open(exact if os.path.exists(exact) else os.path.join(program, 'says'), encoding='ascii') as file:
        wanted = file.read()
    version = wanted.split('\n', 1)[0].rsplit(' ', 1)[1]
    limit = next(line.split(' ')[1] for line in wanted.splitlines() if line.startswith('limit '))
    with tempfile.TemporaryDirectory() as classes:
        for source in glob.glob(os.path.join(program, '*.jasm')):
            assembled(varexj, source, os.path.join(classes, os.path.basename(source).replace('.jasm', '.class')))
        done = called([varexj, 'run', classes, os.path.join(program, 'model'), 'Main', limit, version])
    if done.status != 0:
        return done.told()
    report = done.out.decode('ascii')
    if os.path.exists(exact):
        return None if report == wanted else 'another text'
    return None if list(said(report)) == list(said(wanted)) else 'another output or end'


def main(varexj, folders):
    programs = [os.path.abspath(folder) for folder in folders] or sorted(glob.glob(os.path.join(HERE, '*', '*', '')))
    passed, failed = 0, 0
    for program in programs:
        wrong = judged(varexj, program)
        if wrong:
            failed += 1
            print(f'{os.path.relpath(program, HERE)}: {wrong}')
        else:
            passed += 1
    print(f'engine: {passed} passed, {failed} failed')
    return 1 if failed or not passed else 0


if __name__ == '__main__':
    sys.exit(main(os.path.abspath(sys.argv[1]), sys.argv[2:]))
