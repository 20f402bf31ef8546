"""What scripts that replay share: what is run, configurations, and the comparison of a report's projections with replays."""

import itertools
import os
import re
import sys

HERE = os.path.dirname(os.path.abspath(__file__))
CASES = os.path.join(HERE, '..', 'cases')
sys.path.insert(0, os.path.join(HERE, '..', 'programs'))

import programs
from common import called

MOST = 64
TRIED = 1024
NOT_ALLOWED = 11
LIMIT = '1000000'


def runs():
    """A name, a folder to stand in, and the words behind `run` up to the limit."""
    for name in sorted(os.listdir(CASES)):
        folder = os.path.join(CASES, name)
        if os.path.exists(os.path.join(folder, 'args')):
            with open(os.path.join(folder, 'args')) as file:
                words = file.read().splitlines()
            if words[:1] == ['run'] and len(words) >= 5:
                yield name, folder, words[1:5]
    for program in programs.programs():
        yield program.name, program.folder, program.words(LIMIT)


def options_of(report):
    """The names of a report's options."""
    return re.findall(r'^option (.*)$', report.decode('latin-1'), flags=re.M)


def configurations(options):
    """Words that name configurations: all of them where they are few, else first none and all, and then some that are spread."""
    if 2 ** len(options) <= TRIED:
        numbers = range(2 ** len(options))
    else:
        spread = (number * 0x9E3779B97F4A7C15 % 2 ** 64 >> (64 - len(options)) for number in itertools.count(1))
        numbers = itertools.chain([0, 2 ** len(options) - 1], itertools.islice(spread, TRIED))
    for number in numbers:
        yield ','.join(option for at, option in enumerate(options) if number >> at & 1) or '-'


def agree(projection, replay):
    """Whether the replay says first what the projection says, and then where its frames stand."""
    head, tail = b'varexj replay 1\n' + projection, b'done\n'
    if not replay.startswith(head) or not replay.endswith(tail):
        return False
    return re.fullmatch(rb'(at [!-~]+ (-|\d+)\n)*', replay[len(head):-len(tail)]) is not None


def judged(varexj, folder, words, report):
    """How many allowed configurations were compared, and those that differ."""
    with open(report, 'rb') as file:
        options = options_of(file.read())
    compared, different = 0, []
    for configuration in configurations(options):
        projection = called([varexj, 'project', report, configuration], folder)
        replay = called([varexj, 'replay', *words, configuration], folder)
        is_done = projection.status == 0
        if projection.status != replay.status or projection.status not in (0, NOT_ALLOWED) or (is_done and not agree(projection.out, replay.out)):
            different.append(configuration)
        compared += is_done
        if compared == MOST:
            break
    return compared, different
