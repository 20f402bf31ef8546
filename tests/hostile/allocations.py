"""Makes each allocation of the C library fail in turn, by itself and then with all that follow it.

    python3 tests/hostile/allocations.py VAREXJ [SECONDS]

A call ends with status 1 (no memory) and writes nothing, or it ends as it does where nothing fails. gcc is needed. A dozen runs of
each command are tried, each for some SECONDS, which are one and a half where they aren't given. A run that has more allocations
than can be tried in that time has those tried that are evenly spread over it.
"""

import os
import struct
import sys
import tempfile
from concurrent.futures import ThreadPoolExecutor

import runs
import trying

SECONDS_A_RUN = 1.5
# Of the time of a run, the part in which one allocation fails with all that follow.
PART_WITH_REST = 0.1
LEAST_TRIES = 10
SECONDS = 60
FOREVER = 1 << 40
NO_MEMORY = (1, b'', b'no memory\n')

# It counts the allocations from the start of the program on, in a file that the script reads, and refuses those between two numbers.
LIBRARY = r'''
#include <errno.h>
#include <fcntl.h>
#include <stddef.h>
#include <stdlib.h>
#include <sys/mman.h>
#include <unistd.h>

extern void *__libc_malloc(size_t);
extern void *__libc_calloc(size_t, size_t);
extern void *__libc_realloc(void *, size_t);
extern void *__libc_memalign(size_t, size_t);

static long *count, first, last;

__attribute__((constructor)) static void begin(void) {
    int file = open(getenv("ALLOCATIONS"), O_RDWR);
    first = atol(getenv("FIRST"));
    last = atol(getenv("LAST"));
    count = mmap(NULL, sizeof *count, PROT_READ | PROT_WRITE, MAP_SHARED, file, 0);
    close(file);
}

static int refused(void) {
    if (count == NULL) return 0;
    ++*count;
    if (*count < first || *count > last) return 0;
    errno = ENOMEM;
    return 1;
}

void *malloc(size_t size) { return refused() ? NULL : __libc_malloc(size); }
void *calloc(size_t many, size_t size) { return refused() ? NULL : __libc_calloc(many, size); }
void *realloc(void *block, size_t size) { return refused() ? NULL : __libc_realloc(block, size); }
void *memalign(size_t align, size_t size) { return refused() ? NULL : __libc_memalign(align, size); }
void *aligned_alloc(size_t align, size_t size) { return memalign(align, size); }
int posix_memalign(void **block, size_t align, size_t size) {
    void *found = memalign(align, size);
    if (found == NULL) return ENOMEM;
    *block = found;
    return 0;
}
'''


class Call:
    """A run that is called again and again, each time with other allocations refused."""

    def __init__(self, varexj, run, place, preloaded):
        self.words = [varexj, *run.words]
        self.folder = run.folder(place)
        self.preloaded = preloaded

    def with_refused(self, first, last):
        """How the call ends, and how many allocations it asked for."""
        with tempfile.NamedTemporaryFile() as counted:
            counted.write(bytes(8))
            counted.flush()
            environment = {'LD_PRELOAD': self.preloaded, 'ALLOCATIONS': counted.name, 'FIRST': str(first), 'LAST': str(last)}
            ended = trying.called(self.words, self.folder, SECONDS, environment)
            counted.seek(0)
            return ended, struct.unpack('q', counted.read(8))[0]


def numbers(total, most):
    """The allocations that are refused, from 1 on: all, or as many as are tried."""
    if total <= most:
        return range(1, total + 1)
    return [1 + i * (total - 1) // (most - 1) for i in range(most)]


def ranges(total, most):
    """What is refused in each try: one allocation, or one with all that follow."""
    with_rest = max(LEAST_TRIES, int(most * PART_WITH_REST))
    alone = [(first, first) for first in numbers(total, max(LEAST_TRIES, most - with_rest))]
    return alone + [(first, FOREVER) for first in numbers(total, with_rest)]


def problem(ended, whole, asked, first):
    if asked < first:
        return f'the allocation was not asked for: {asked} were'
    if (ended.status, ended.out, ended.err) == NO_MEMORY or ended.is_as(whole):
        return None
    return f'{ended.told()}; without a failure {whole.told()}'


def try_run(call, name, seconds, tally, pool):
    whole, total = call.with_refused(0, 0)
    tries = ranges(total, int(seconds * os.cpu_count() / whole.seconds))
    answers = pool.map(lambda refused: call.with_refused(*refused), tries)
    refusals = 0
    for (first, last), (ended, asked) in zip(tries, answers):
        what = 'only' if last == first else 'and all that follow'
        tally.judge(f'{name}, allocation {first} {what}', problem(ended, whole, asked, first))
        refusals += ended.status == NO_MEMORY[0]
    print(f'{name}: {total} allocations, {len(tries)} tries, {refusals} without memory', flush=True)
    if total == 0:
        tally.judge(name, 'no allocation was counted: is the program linked with the C library?')


def main(varexj, seconds):
    trying.needs('gcc', 'gcc')
    tally = trying.Tally()
    with tempfile.TemporaryDirectory() as place, ThreadPoolExecutor(os.cpu_count()) as pool:
        preloaded = trying.library(LIBRARY, place, 'allocations')
        for run in runs.runs():
            try_run(Call(varexj, run, place, preloaded), run.name(), seconds, tally, pool)
    return tally.status()


if __name__ == '__main__':
    path, given = trying.program_and_word()
    sys.exit(main(path, float(given or SECONDS_A_RUN)))
