"""Measures a run that is spread over processors, of a varexj that was built; the gate doesn't run this.

    python3 spread.py VAREXJ

The program of ../../examples/spread: a sum over twelve options is printed, and numbers from a seed that is another one in each configuration are sorted, so that
no two configurations have one value. Under the example's model, which allows 1,024 configurations, and under its options without its rules, 4,096: the single run; then the model cut by 3 and by 6
options, and the runs of the parts by GNU parallel, one, two and four at a time; then the join. Clock is what passed, on a machine that may have other work; processors is the processor
seconds of all that was called. Each join is compared with the single run: at each configuration both projections are the same bytes.
"""

import os
import shutil
import sys
import tempfile
import time

sys.path.insert(0, os.path.join(os.path.dirname(os.path.abspath(__file__)), '..'))

import common
from common import processor_seconds, written

EXAMPLE = os.path.join(os.path.dirname(os.path.abspath(__file__)), '..', '..', 'examples', 'spread')
LIMIT = '100000'
CHOSEN = ('3', '6')
AT_A_TIME = (1, 2, 4)


def told(*words):
    """What a call writes, which has to be done."""
    done = common.called(words)
    if done.status:
        sys.exit(f'{" ".join(words)}: {done.told()}')
    return done.out


def timed(title, *words):
    """What a command wrote, once its times are told."""
    clock, spent = time.time(), processor_seconds()
    text = told(*words)
    print(f'{title:30} clock {time.time() - clock:8.2f} s, processors {processor_seconds() - spent:8.2f} s', flush=True)
    return text


def rounds_of(report):
    return next(line for line in report.split(b'\n') if line.startswith(b'rounds ')).decode()


def part_places(text):
    """Files of the parts, each what stands behind its line of comment."""
    return [written(f'{number:05d}.model', part.split(b'\n', 1)[1]) for number, part in enumerate(text.split(b'# part ')[1:], 1)]


def configurations(varexj, report):
    """All that have an end, in the words that project takes."""
    lines = told(varexj, 'list', report, '1000000').decode().split('\n')
    return [line.split(' ')[0] for line in lines[2:lines.index('done')]]


def spread(varexj, model, chosen):
    """The place of the joined report of a model that is cut by so many options."""
    parts = part_places(timed(f'cut by {chosen}', varexj, 'cut', model, chosen))
    for at_a_time in AT_A_TIME:
        command = f'{varexj} run classes {{}} Main {LIMIT} 2 > {{.}}.report'
        timed(f'{len(parts)} parts, {at_a_time} at a time', 'parallel', '-j', str(at_a_time), '--halt', 'now,fail=1', command, ':::', *parts)
    joined = timed('join', varexj, 'join', *(part.replace('.model', '.report') for part in parts))
    print(rounds_of(joined))
    return written('joined', joined)


def measured(varexj, model):
    """How many configurations differ between the single run and the joined ones."""
    report = timed('one run', varexj, 'run', 'classes', model, 'Main', LIMIT, '2')
    single = written('single', report)
    print(rounds_of(report))
    wanted = {name: told(varexj, 'project', single, name) for name in configurations(varexj, single)}
    faults = 0
    for chosen in CHOSEN:
        joined = spread(varexj, model, chosen)
        differ = sum(told(varexj, 'project', joined, name) != text for name, text in wanted.items())
        print(f'{len(wanted)} configurations, {differ} of them differ')
        faults += differ + (configurations(varexj, joined) != list(wanted))
    return faults


def main(varexj):
    shutil.copytree(os.path.join(EXAMPLE, 'classes'), 'classes')
    with open(os.path.join(EXAMPLE, 'model'), 'rb') as file:
        lines = file.read().splitlines(keepends=True)
    models = written('model', b''.join(lines)), written('free', b''.join(line for line in lines if line.startswith(b'option ')))
    return 1 if sum(measured(varexj, model) for model in models) else 0


if __name__ == '__main__':
    place = os.path.abspath(sys.argv[1])
    with tempfile.TemporaryDirectory() as folder:
        os.chdir(folder)
        status = main(place)
        os.chdir('/')
    sys.exit(status)
