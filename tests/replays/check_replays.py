"""Compares the reports of the worked cases and of the programs of javac with replays, configuration by configuration.

    python3 check_replays.py VAREXJ

Each case of ../cases whose first command is `run`, and each program that javac made, is run once with a report of version 2. At each configuration, or
at 64 of them that are spread where there are more, the report's projection is what the replay says first, and a configuration that one refuses the
other refuses too. The two answers come from two machines: one runs all configurations at once, the other a single one.

Where a configuration of such a program ends by an exception that nothing catches, a Java machine has said in which frames and lines the exception was
made (the files traces, by ../programs/ask_jvm.py). The replay's frames in classes of the program are the same; but where the exception came out
of some of these frames and was thrown on by a `catch` or `finally`, they are those that were left, and the one on top stands where it was thrown on.
"""

import os
import re
import sys
import tempfile

from comparing import LIMIT, called, judged, programs, runs
from common import written


def traces(program):
    """For each configuration that ends by an exception: the frames in which it was made, as a method and a line each."""
    if os.path.exists(program.place('traces')):
        with open(program.place('traces')) as file:
            for part in file.read().split('config ')[1:]:
                configuration, *lines = part.splitlines()
                yield configuration, [tuple(line.split()[1:]) for line in lines]


def frames(replay):
    """The frames of a replay in classes of the program, likewise."""
    found = re.findall(r'^at ([^(]*)\(\S* (\S+)$', replay.decode('ascii'), flags=re.M)
    return [(method, line) for method, line in found if not method.startswith('java/')]


def are_left(left, made):
    """Whether these are the frames in which an exception was made, or what was left of them when it was thrown on."""
    if not left or left == made:
        return left == made
    there = made[len(made) - len(left):]
    return len(left) < len(made) and left[0][0] == there[0][0] and left[1:] == there[1:]


def traced(varexj):
    """How many traces were compared, and how many differ."""
    compared, different = 0, 0
    for program in programs.programs():
        for configuration, made in traces(program):
            replay = called([varexj, 'replay', *program.words(LIMIT), configuration])
            compared += 1
            if replay.status != 0 or not are_left(frames(replay.out), made):
                different += 1
                print(f'{program.name}: other frames at {configuration}')
    return compared, different


def main(varexj):
    total, failed = 0, 0
    with tempfile.TemporaryDirectory() as place:
        report = os.path.join(place, 'report')
        for name, folder, words in runs():
            done = called([varexj, 'run', *words, '2'], folder)
            if done.status != 0:
                continue
            compared, different = judged(varexj, folder, words, written(report, done.out))
            total += compared
            failed += bool(different)
            if different:
                print(f'{name}: differs at {" ".join(different[:4])} and {max(0, len(different) - 4)} more')
    compared, different = traced(varexj)
    print(f'replays: {total} configurations compared, {failed} programs differ; {compared} traces of a Java machine, {different} differ')
    return 1 if failed or different or not total or not compared else 0


sys.exit(main(os.path.abspath(sys.argv[1])))
