"""Measures replays of a varexj that was built; the gate doesn't run this.

    python3 tests/speed/replays.py VAREXJ

Loops: millions of instructions a second in one configuration, without the time of starting and reading, which is that of a replay with a small
limit. Programs: the seconds of one run that all configurations share, those of a replay of each of them one after the other, and how many
times the one goes into the other; of more than 64 configurations 64 are replayed, and their seconds are reckoned up. Starting and reading are in
both. Each time is of a processor, and of a loop and of a shared run the least of three.
"""

import itertools
import os
import sys
import tempfile

from loops import LOOPS
from measure import CASES, WIDTH, called, class_folder, modelled, processor_seconds, programs

TIMES = 3
FEW, MANY = 10000, 3000000
SAMPLE = 64


def seconds(*words):
    began = processor_seconds()
    done = called(words)
    if done.status:
        sys.exit(f'{" ".join(words)}: {done.told()}')
    return processor_seconds() - began


def least(*words):
    return min(seconds(*words) for _ in range(TIMES))


def measured_loop(varexj, loop, folder):
    words = [varexj, 'replay', class_folder(varexj, loop.source(), folder), modelled(loop.model(), folder), 'Main']
    spent = least(*words, str(MANY), '-') - least(*words, str(FEW), '-')
    return f'{(MANY - FEW) / spent / 1e6:8.2f} million instructions a second'


def measured_program(varexj, classes, model_place, main, limit, count, configurations):
    shared = least(varexj, 'run', classes, model_place, main, limit, '1')
    sample = list(itertools.islice(configurations, SAMPLE))
    each = sum(seconds(varexj, 'replay', classes, model_place, main, limit, name) for name in sample) / len(sample)
    return f'{count:8} configurations {shared:8.3f} s shared {each * count:10.3f} s replayed {each * count / shared:10.1f} times'


def spread(options):
    """Configurations of so many options that no rule binds, far from each other."""
    for number in itertools.count():
        bits = number * 0x9E3779B97F4A7C15 % 2 ** 64 >> (64 - len(options))
        yield ','.join(option for at, option in enumerate(options) if bits >> at & 1) or '-'


def case(name):
    """The words of a worked case that runs, and the names of its options, which no rule binds."""
    folder = os.path.join(CASES, name)
    with open(os.path.join(folder, 'args')) as file:
        _, classes, model, main, limit, _ = file.read().split()
    with open(os.path.join(folder, model)) as file:
        options = [line.split()[1] for line in file if line.startswith('option ')]
    return os.path.join(folder, classes), os.path.join(folder, model), main, limit, options


def main(varexj):
    with tempfile.TemporaryDirectory() as folder:
        for loop in LOOPS:
            print(f'{loop.name:{WIDTH}}', measured_loop(varexj, loop, folder), flush=True)
    for name in ('long-run-20-options', 'equal-pairs-24-options'):
        *words, options = case(name)
        print(f'{name:{WIDTH}}', measured_program(varexj, *words, 2 ** len(options), spread(options)), flush=True)
    for program in programs.programs():
        names = list(program.model().configurations())
        if len(names) >= 30:
            words = program.place('classes'), program.model_place(), program.main(), '1000000'
            print(f'program {program.name:{WIDTH - 8}}', measured_program(varexj, *words, len(names), names[::-(-len(names) // SAMPLE)]), flush=True)


if __name__ == '__main__':
    main(os.path.abspath(sys.argv[1]))
