"""Checks that a call says `no memory` only where memory was refused.

    python3 check_memory.py VAREXJ

The cases of ../cases that run, the programs that javac made and the examples are run, verified, and replayed in each allowed configuration, or in 64
of them, under a library that counts the allocations that the C library refuses (../hostile/refused.c). A call that ends with status 1 while none was
refused makes the check fail. The library is built by cc; where there is none, a line says so, and nothing is checked.
"""

import os
import shutil
import subprocess
import sys
import tempfile

HERE = os.path.dirname(os.path.abspath(__file__))
SOURCE = os.path.join(HERE, '..', 'hostile', 'refused.c')
sys.path.insert(0, os.path.join(HERE, '..', 'replays'))

import comparing
from comparing import called

NO_MEMORY = 1


class Counting:
    """Calls under the library, and what they were refused."""

    def __init__(self, varexj, place):
        self.varexj = varexj
        self.count = os.path.join(place, 'refused')
        library = os.path.join(place, 'refused.so')
        subprocess.run(['cc', '-shared', '-fPIC', '-O1', '-o', library, SOURCE], check=True)
        self.surroundings = {'LD_PRELOAD': library, 'REFUSED': self.count}
        self.calls = 0
        self.faults = []

    def call(self, name, folder, *words):
        """The status and the output; a fault is noted where it says `no memory` and none was refused."""
        with open(self.count, 'wb') as file:
            file.write(bytes(8))
        done = called([self.varexj, *words], folder, environment=self.surroundings)
        self.calls += 1
        with open(self.count, 'rb') as file:
            if done.status == NO_MEMORY and file.read() == bytes(8):
                self.faults.append('%s: %s says no memory, and none was refused' % (name, ' '.join((words[0], *words[5:]))))
        return done.status, done.out


def main(varexj):
    if shutil.which('cc') is None:
        print('memory: not checked, since there is no cc')
        return 0
    with tempfile.TemporaryDirectory() as place:
        counting = Counting(varexj, place)
        for name, folder, words in comparing.runs():
            _, report = counting.call(name, folder, 'run', *words, '1')
            counting.call(name, folder, 'verify', *words[:3])
            replayed = 0
            for configuration in comparing.configurations(comparing.options_of(report)):
                status, _ = counting.call(name, folder, 'replay', *words, configuration)
                replayed += status == 0
                if status not in (0, comparing.NOT_ALLOWED) or replayed == comparing.MOST:
                    break
    for fault in counting.faults:
        print(fault)
    print('memory: %d calls, %d of which say no memory where none was refused' % (counting.calls, len(counting.faults)))
    return 1 if counting.faults or not counting.calls else 0


sys.exit(main(os.path.abspath(sys.argv[1])))
