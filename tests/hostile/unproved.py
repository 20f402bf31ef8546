"""Makes allocations of the unproved program fail, built with checks of each access to memory.

    python3 tests/hostile/unproved.py [SECONDS]

`rt try --fail-alloc N` of the Rattle kit writes N into the code of the program that it builds. So the program of this checkout is built once, in a
few minutes, with an N that is like nothing else in it, and each try calls a copy in which another number stands there. The runs of `runs.py` are
tried for some SECONDS in all, 300 where they aren't given, each at allocations that are evenly spread over it. A try ends with status 1 (no
memory) and writes nothing, or it ends as it does where nothing fails. An access that the checks refuse ends a call by a signal.
"""

import errno
import os
import queue
import re
import shutil
import struct
import subprocess
import sys
import tempfile
import time
from concurrent.futures import ThreadPoolExecutor

import allocations
import runs
import trying

SECONDS = 300
SECONDS_A_CALL = 60
LEAST_TRIES = 4
BUILDER = os.path.join(os.path.dirname(os.path.dirname(trying.HERE)), 'examples', 'unproved.py')
# The N that the program is built with: larger than the count of any run, and no other four bytes of the program are like it.
BUILT_IN = 0x5A5A5A59
CHECKS = 'allocator_may_return_null=1:abort_on_error=1:symbolize=0'
COUNTED = re.compile(rb'malloced .* by (\d+) calls')


def number_bytes(number):
    return struct.pack('<i', number)


class Copies:
    """Copies of the program, as many as are called at a time."""

    def __init__(self, program, place):
        with open(program, 'rb') as file:
            self.places = [found.start() for found in re.finditer(re.escape(number_bytes(BUILT_IN)), file.read())]
        self.free = queue.SimpleQueue()
        for number in range(os.cpu_count()):
            self.free.put(shutil.copy2(program, os.path.join(place, f'copy-{number}')))

    def with_refused(self, words, folder, refused, checks=CHECKS):
        """How a call ends whose allocation of this number fails."""
        copy = self.free.get()
        try:
            with open(copy, 'r+b') as file:
                for place in self.places:
                    file.seek(place)
                    file.write(number_bytes(refused))
            return called([copy, *words], folder, checks)
        finally:
            self.free.put(copy)


def called(words, folder, checks):
    """Calls a copy, as soon as no other call that is just starting holds it open."""
    while True:
        try:
            return trying.called(words, folder, SECONDS_A_CALL, {'ASAN_OPTIONS': checks})
        except OSError as error:
            if error.errno != errno.ETXTBSY:
                raise


def problem(ended, whole):
    if (ended.status, ended.out, ended.err) == allocations.NO_MEMORY or ended.is_as(whole):
        return None
    return f'{ended.told()}, {ended.err[-300:]}; without a failure {whole.told()}'


def try_run(copies, run, place, seconds, tally, pool):
    """Tries one run for about so many seconds."""
    folder = run.folder(place)
    whole = copies.with_refused(run.words, folder, BUILT_IN)
    counted = copies.with_refused(run.words, folder, BUILT_IN, f'{CHECKS}:atexit=1')
    # The checks make two of them themselves.
    total = int(COUNTED.search(counted.err)[1])
    tries = allocations.numbers(total, max(LEAST_TRIES, int(seconds * os.cpu_count() / whole.seconds)))
    ends = list(pool.map(lambda refused: copies.with_refused(run.words, folder, refused), tries))
    for refused, ended in zip(tries, ends):
        tally.judge(f'{run.name()}, allocation {refused}', problem(ended, whole))
    without = sum(ended.status == allocations.NO_MEMORY[0] for ended in ends)
    print(f'{run.name()}: {total} allocations, {len(tries)} tries, {without} without memory', flush=True)
    tally.judge(run.name(), None if without else 'no allocation was refused')


def main(seconds):
    if not shutil.which('rt'):
        print('rt, the command of the Rattle kit, is not there')
        return trying.LACKING
    tally = trying.Tally()
    with tempfile.TemporaryDirectory() as place, ThreadPoolExecutor(os.cpu_count()) as pool:
        program = os.path.join(place, 'varexj')
        subprocess.run([sys.executable, BUILDER, program, '--fail-alloc', str(BUILT_IN)], check=True)
        copies, end = Copies(program, place), time.monotonic() + seconds
        tried = list(runs.runs())
        for number, run in enumerate(tried):
            try_run(copies, run, place, (end - time.monotonic()) / (len(tried) - number), tally, pool)
    return tally.status()


if __name__ == '__main__':
    if len(sys.argv) > 2:
        sys.exit(__doc__)
    sys.exit(main(float(sys.argv[1]) if len(sys.argv) == 2 else SECONDS))
