"""Compares traces with the stack traces of a Java machine on programs that are drawn by a seed.

    python3 random_traces.py VAREXJ [FIRST [COUNT]]

For each seed from FIRST on (1 where it is left out), COUNT of them (20), the Java program with three options that ../replays draws is compiled with the names and lines of its source. A Java machine
is asked for the stack trace of each configuration that ends by an exception, and `trace` for the same. What runs out of memory is passed over: a Java machine has traces of its own for that. Where
a trace differs both are printed. Wants javac and java, and some seconds of a processor for each program; the gate doesn't run it.
"""

import itertools
import os
import re
import subprocess
import sys
import tempfile

# this folder's, before the one of ../programs can be found
from ask_jvm import FLAGS

import check_traces

sys.path.insert(0, os.path.join(check_traces.HERE, '..', 'replays'))

import drawing
from common import called, written


def compiled(folder, name, seed):
    """The folder of the classes of the program that is drawn by a seed, and whether it may exit."""
    classes = os.path.join(folder, 'classes')
    text = drawing.drawn(seed, name)
    source = written(os.path.join(folder, name + '.java'), text)
    subprocess.run(['javac', '--release', '8', '-g:source,lines', '-nowarn', '-Xlint:-options', '-d', classes, source], check=True, stderr=subprocess.DEVNULL)
    return classes, 'System.exit' in text


def stacks(folder, name, classes, exits):
    """Each configuration that ends by an exception with its stack trace. A Java machine that exits is asked for one configuration at a time."""
    options = [line.split()[1:] for line in drawing.model(name).splitlines() if line.startswith('option')]
    settings = itertools.product([False, True], repeat=len(options))
    names = [','.join(option[0] for option, on in zip(options, setting) if on) or '-' for setting in settings]
    for asked in [[one] for one in names] if exits else [names]:
        places = check_traces.programs.put_settings(options, asked, folder)
        words = ['java', *FLAGS, os.path.join(check_traces.HERE, 'Stacks.java'), classes, name, *places]
        said = subprocess.run(words, check=not exits, capture_output=True).stdout
        for part in re.split(rb'^config ', said, flags=re.M)[1:]:
            configuration, text = part.split(b'\n', 1)
            if b'java.lang.OutOfMemoryError' not in text:
                yield configuration.decode('ascii'), check_traces.plain(text)


def compared(varexj, folder, seed):
    """How many traces of the program of a seed were compared, and how many differ."""
    name = f'P{seed}'
    classes, exits = compiled(folder, name, seed)
    model = written(os.path.join(folder, 'model'), drawing.model(name))
    count, different = 0, 0
    for configuration, expected in stacks(folder, name, classes, exits):
        count += 1
        trace = called([varexj, 'trace', classes, model, name, check_traces.LIMIT, configuration]).out
        if check_traces.plain(trace) != expected:
            different += 1
            print(f'seed {seed} at {configuration}:\n{expected}--\n{check_traces.plain(trace)}', end='')
    return count, different


def main(varexj, first='1', count='20'):
    total, failed = 0, 0
    for seed in range(int(first), int(first) + int(count)):
        with tempfile.TemporaryDirectory() as folder:
            done, different = compared(varexj, folder, seed)
        total, failed = total + done, failed + different
    print(f'random traces: {count} programs, {total} stack traces of a Java machine compared, {failed} differ')
    return 1 if failed or not total else 0


if __name__ == '__main__':
    sys.exit(main(os.path.abspath(sys.argv[1]), *sys.argv[2:]))
