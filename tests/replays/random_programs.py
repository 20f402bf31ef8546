"""Compares replays with reports on programs that are drawn by a seed, configuration by configuration.

    python3 random_programs.py VAREXJ [FIRST [COUNT]]

For each seed from FIRST on (1 where it is left out), COUNT of them (100), a Java program with three options is drawn (drawing.py) and compiled by
`javac --release 8`. It is run once with a report of version 2, and at each configuration the report's projection is what the replay says first. A run
that ends with a status other than 0 is a fault too: a drawn program links, and no run of it is to want for memory. Where a seed differs its source is printed.
"""

import os
import re
import shutil
import subprocess
import sys
import tempfile

import drawing

from comparing import LIMIT, called, judged
from common import written


def compiled(place, names):
    """The classes of all programs, in one folder."""
    classes = os.path.join(place, 'classes')
    sources = [os.path.join(place, name + '.java') for name in names]
    subprocess.run(['javac', '-J-Xmx1g', '--release', '8', '-g:lines', '-nowarn', '-Xlint:-options', '-d', classes, *sources], check=True, stderr=subprocess.DEVNULL)
    return classes


def folder_of(place, classes, name):
    """A folder with the classes of one program alone, and its model."""
    folder = os.path.join(place, name)
    os.makedirs(os.path.join(folder, 'classes'))
    for file in os.listdir(classes):
        if re.fullmatch(name + r'(\$.*)?\.class', file):
            shutil.move(os.path.join(classes, file), os.path.join(folder, 'classes', file))
    with open(os.path.join(folder, 'model'), 'w') as file:
        file.write(drawing.model(name))
    return folder


def compared(varexj, folder, name):
    """How many configurations were compared, and what is wrong, if anything."""
    words = ['classes', 'model', name, LIMIT]
    done = called([varexj, 'run', *words, '2'], folder)
    if done.status != 0:
        return 0, done.told()
    count, different = judged(varexj, folder, words, written(os.path.join(folder, 'report'), done.out))
    return count, f'differs at {" ".join(different)}' if different else None


def main(varexj, first='1', count='100'):
    seeds = range(int(first), int(first) + int(count))
    total, failed = 0, 0
    with tempfile.TemporaryDirectory() as place:
        names = {seed: f'P{seed}' for seed in seeds}
        for seed, name in names.items():
            with open(os.path.join(place, name + '.java'), 'w') as file:
                file.write(drawing.drawn(seed, name))
        classes = compiled(place, names.values())
        for seed, name in names.items():
            done, wrong = compared(varexj, folder_of(place, classes, name), name)
            total += done
            if wrong:
                failed += 1
                print(f'seed {seed}: {wrong}\n{drawing.drawn(seed, name)}')
    print(f'random programs: {len(names)} programs, {total} configurations compared, {failed} programs differ')
    return 1 if failed or not total else 0


sys.exit(main(os.path.abspath(sys.argv[1]), *sys.argv[2:]))
