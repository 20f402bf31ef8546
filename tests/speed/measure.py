"""Measures a varexj that was built; the gate doesn't run this.

    python3 tests/speed/measure.py VAREXJ [--count]

Loops: a row has the rounds that were made (by the report), seconds of a processor, and microseconds a round, without the
time of starting and reading, which is that of a run with a small limit. Whole programs: the same, with starting and
reading. Each time is the least of three. With --count (valgrind is needed) a row also has the instructions of a round, which are the same each
time; of a whole program, those of the run in millions. A program that is refused says its status.
"""

import argparse
import os
import re
import sys
import tempfile

from loops import LOOPS, appends, descent_model, descents

HERE = os.path.dirname(os.path.abspath(__file__))
CASES = os.path.join(HERE, '..', 'cases')
PROGRAMS = os.path.join(HERE, '..', 'programs')
sys.path.insert(0, PROGRAMS)

import programs
import common
from common import called, processor_seconds, written

WIDTH = 40
TIMES = 3
FEW = 200
COUNTED = ('valgrind', '--tool=callgrind', '--callgrind-out-file=/dev/null')


class Run:
    """What one run of varexj came to."""

    def __init__(self, varexj, classes, model, limit, under=()):
        began = processor_seconds()
        done = called([*under, varexj, 'run', classes, model, 'Main', str(limit), '1'])
        self.seconds = processor_seconds() - began
        self.status = done.status
        self.said = done.err.decode()
        rounds = re.search(rb'^rounds (\d+)$', done.out, flags=re.M)
        self.rounds = int(rounds[1]) if rounds else 0

    def instructions(self):
        return int(re.search(r'Collected : (\d+)', self.said)[1])

    def refusal(self):
        return f'status {self.status} {self.said.strip()}'


def fastest(*words):
    return min((Run(*words) for _ in range(TIMES)), key=lambda run: run.seconds)


def class_folder(varexj, source, folder):
    """The folder of a class that is assembled there."""
    classes = os.path.join(folder, 'classes')
    os.makedirs(classes, exist_ok=True)
    common.assembled(varexj, written(os.path.join(folder, 'Main.jasm'), source), os.path.join(classes, 'Main.class'))
    return classes


def modelled(text, folder):
    return written(os.path.join(folder, 'model'), text)


def measured_loop(varexj, loop, is_counted, folder):
    classes = class_folder(varexj, loop.source(), folder)
    model = modelled(loop.model(), folder)
    few = FEW + 8 * loop.callers
    start = fastest(varexj, classes, model, few)
    if start.status:
        return start.refusal()
    run = fastest(varexj, classes, model, loop.rounds)
    each = (run.seconds - start.seconds) / (run.rounds - start.rounds)
    text = f'{run.rounds:8} rounds {run.seconds:8.3f} s {each * 1e6:8.2f} us'
    if is_counted:
        more, less = (Run(varexj, classes, model, limit, COUNTED) for limit in (3 * few, few))
        text += f' {(more.instructions() - less.instructions()) // (more.rounds - less.rounds):10} instructions'
    return text


def measured_whole(varexj, classes, model, limit, is_counted):
    run = fastest(varexj, classes, model, limit)
    if run.status:
        return run.refusal()
    text = f'{run.rounds:8} rounds {run.seconds:8.3f} s {run.seconds / run.rounds * 1e6:8.2f} us'
    if is_counted:
        counted = Run(varexj, classes, model, limit, COUNTED)
        text += f' {counted.instructions() / 1e6:10.1f} million instructions'
    return text


def whole_programs(varexj, folder):
    """For each whole program its name, classes, model and limit."""
    for name in ('long-run-20-options', 'equal-pairs-24-options'):
        with open(os.path.join(CASES, name, 'args')) as file:
            _, classes, model, _, limit, _ = file.read().split()
        yield name, os.path.join(CASES, name, classes), os.path.join(CASES, name, model), limit
    for depth in (250, 500, 1000):
        for throws in (False, True):
            name = f'16 groups {"throw through" if throws else "return from"} {depth} frames'
            yield name, class_folder(varexj, descents(depth, throws), folder), modelled(descent_model(), folder), 1000000
    yield '10,000 appends', class_folder(varexj, appends(10000), folder), modelled('', folder), 100000
    for program in programs.programs():
        # The one of the walk-through, whose class has another name, is too small to measure.
        if program.main() == 'Main':
            yield f'program {program.name}', program.place('classes'), program.model_place(), 1000000


def main(varexj, is_counted):
    with tempfile.TemporaryDirectory() as folder:
        for loop in LOOPS:
            print(f'{loop.name:{WIDTH}}', measured_loop(varexj, loop, is_counted, folder), flush=True)
        for name, *words in whole_programs(varexj, folder):
            print(f'{name:{WIDTH}}', measured_whole(varexj, *words, is_counted), flush=True)


if __name__ == '__main__':
    parser = argparse.ArgumentParser()
    parser.add_argument('varexj', type=os.path.abspath)
    parser.add_argument('--count', action='store_true')
    words = parser.parse_args()
    main(words.varexj, words.count)
