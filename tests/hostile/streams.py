"""Gives the program a standard output that is full, slow, closed or left by its reader, and reads and writes of few bytes.

    python3 tests/hostile/streams.py VAREXJ

gcc is needed. Where not all is taken that is a write fault (4), and what was taken is a proper prefix; else the output is whole.
"""

import fcntl
import os
import resource
import signal
import subprocess
import sys
import tempfile
import time

import trying

SECONDS = 60
SMALLEST_PIPE = 4096
LINE = b'write fault\n'

# Small outputs of each command, a large one of run, and a refusal.
SMALL = ['print-a-number', 'print-an-option', 'project-option-on', 'assemble-class-with-option', 'verify-branches', 'interact-one-option',
         'agree-with-itself', 'picture-one-option', 'cover-one-option', 'explain-one-option', 'replay-with-lines',
         'cut-clauses', 'join-two-parts', 'trace-cause', 'count-two-options', 'list-two-options', 'output-named', 'picture-ends', 'check-as-expected',
         'check-other-than-expected', 'compare-with-itself', 'compare-another-line', 'workload-summary-3-options']
LARGE = 'equal-pairs-24-options'
REFUSED = 'no-configuration'

# It lets each read and each write take at most so many bytes.
LIBRARY = r'''
#define _GNU_SOURCE
#include <dlfcn.h>
#include <stdlib.h>
#include <unistd.h>

static size_t least(size_t size) {
    size_t most = atol(getenv("MOST"));
    return size < most ? size : most;
}

ssize_t read(int file, void *bytes, size_t size) {
    ssize_t (*next)(int, void *, size_t) = dlsym(RTLD_NEXT, "read");
    return next(file, bytes, least(size));
}

ssize_t write(int file, const void *bytes, size_t size) {
    ssize_t (*next)(int, const void *, size_t) = dlsym(RTLD_NEXT, "write");
    return next(file, bytes, least(size));
}
'''


class Command:
    """A command in its folder, and how it ends where nothing fails."""

    def __init__(self, varexj, name, place, tally):
        self.name = name
        self.words = [varexj, *trying.case_words(name)]
        self.folder = trying.case_folder(name, place)
        self.tally = tally
        self.whole = self.called()

    def called(self, environment=None, **more):
        return trying.called(self.words, self.folder, SECONDS, environment, **more)

    def started(self, out, **more):
        """The command, still running, with this standard output."""
        return subprocess.Popen(self.words, cwd=self.folder, stdin=subprocess.DEVNULL, stdout=out, stderr=subprocess.PIPE, **more)

    def judge(self, what, got, wanted):
        problem = None if got == wanted else f'{trying.Ended(*got, 0).told()}, expected {trying.Ended(*wanted, 0).told()}'
        self.tally.judge(f'{self.name}: {what}', problem, what)

    def is_whole(self):
        return self.whole.status, self.whole.out, self.whole.err

    def is_cut(self, out):
        return 4, out, LINE


def try_few_bytes(command, preloaded):
    """Reads and writes that take few bytes at a time."""
    for most in (1, 7, 4096):
        ended = command.called({'LD_PRELOAD': preloaded, 'MOST': str(most)})
        command.judge(f'at most {most} bytes at a time', ended[:3], command.is_whole())


def file_sizes(most):
    """For the child: a file has room for so many bytes; a write past that is an error and no signal."""
    def limit():
        signal.signal(signal.SIGXFSZ, signal.SIG_IGN)
        resource.setrlimit(resource.RLIMIT_FSIZE, (most, most))
    return limit


def sizes(whole):
    """How many bytes are taken of an output: each number where it is small."""
    return range(len(whole) + 1) if len(whole) < 300 else (0, 1, len(whole) // 2, len(whole) - 1, len(whole))


def try_full_disk(command):
    """A file that takes only so many bytes, as on a disk that gets full."""
    whole = command.whole.out
    for most in sizes(whole):
        with tempfile.TemporaryFile() as out:
            ended = command.called(stdout=out, preexec_fn=file_sizes(most))
            out.seek(0)
            got = ended.status, out.read(), ended.err
        wanted = command.is_whole() if most == len(whole) else command.is_cut(whole[:most])
        command.judge(f'a disk with room for {most} bytes', got, wanted)


def try_full_device(command):
    """A device that takes nothing, and a stream that isn't open."""
    with open('/dev/full', 'wb') as out:
        ended = command.called(stdout=out)
    command.judge('/dev/full', ended[:3], command.is_cut(b''))
    ended = command.called(stdout=None, preexec_fn=lambda: os.close(1))
    command.judge('no standard output', ended[:3], command.is_cut(b''))
    ended = command.called(stdin=None, preexec_fn=lambda: os.close(0))
    command.judge('no standard input', ended[:3], command.is_whole())


def pipe_of(size):
    """The two ends of a pipe that holds so many bytes."""
    reading, writing = os.pipe()
    fcntl.fcntl(writing, fcntl.F_SETPIPE_SZ, size)
    return reading, writing


def rest_of(reading, pause=0.0, step=65536):
    """What is read from a pipe to its end, with a pause behind each step."""
    parts = []
    while part := os.read(reading, step):
        parts.append(part)
        time.sleep(pause)
    os.close(reading)
    return b''.join(parts)


def ended_with(child, out):
    err = child.stderr.read()
    child.stderr.close()
    return child.wait(), out, err


def try_slow_reader(command):
    """A reader that takes little at a time, and a writer that is stopped for a while."""
    reading, writing = pipe_of(SMALLEST_PIPE)
    child = command.started(writing)
    os.close(writing)
    time.sleep(0.2)
    child.send_signal(signal.SIGSTOP)
    time.sleep(0.1)
    child.send_signal(signal.SIGCONT)
    out = rest_of(reading, 0.001, 1000)
    command.judge('a slow reader', ended_with(child, out), command.is_whole())


def try_lost_reader(command):
    """A reader that goes away before the first byte, or behind some; where the caller ignores SIGPIPE, and where it doesn't."""
    for kept, word in ((False, ''), (True, ', and its signal')):
        reading, writing = pipe_of(SMALLEST_PIPE)
        os.close(reading)
        child = command.started(writing, restore_signals=kept)
        os.close(writing)
        command.judge('no reader' + word, ended_with(child, b''), command.is_cut(b''))
        if len(command.whole.out) > 2 * SMALLEST_PIPE:
            reading, writing = pipe_of(SMALLEST_PIPE)
            child = command.started(writing, restore_signals=kept)
            os.close(writing)
            taken = os.read(reading, 1000)
            os.close(reading)
            command.judge('a reader that goes away' + word, ended_with(child, taken), command.is_cut(command.whole.out[:len(taken)]))


def try_full_pipe(command):
    """A pipe that would have to be waited for, and may not be."""
    if len(command.whole.out) <= SMALLEST_PIPE:
        return
    reading, writing = pipe_of(SMALLEST_PIPE)
    os.set_blocking(writing, False)
    child = command.started(writing)
    os.close(writing)
    status, _out, err = ended_with(child, b'')
    out = rest_of(reading)
    command.judge('a full pipe that is not waited for', (status, out, err), command.is_cut(command.whole.out[:SMALLEST_PIPE]))


def try_lost_line(command):
    """A standard error that takes nothing: the status stays."""
    status, out = command.whole.status, command.whole.out
    with open('/dev/full', 'wb') as err:
        command.judge('/dev/full as the standard error', command.called(stderr=err)[:3], (status, out, b''))
    ended = command.called(stderr=None, preexec_fn=lambda: os.close(2))
    command.judge('no standard error', ended[:3], (status, out, b''))


def main(varexj):
    trying.needs('gcc', 'gcc')
    tally = trying.Tally()
    with tempfile.TemporaryDirectory() as place:
        preloaded = trying.library(LIBRARY, place, 'few_bytes')
        for name in [*SMALL, LARGE]:
            command = Command(varexj, name, place, tally)
            try_few_bytes(command, preloaded)
            for tried in (try_full_disk, try_full_device, try_slow_reader, try_lost_reader, try_full_pipe, try_lost_line):
                tried(command)
        try_lost_line(Command(varexj, REFUSED, place, tally))
    return tally.status()


if __name__ == '__main__':
    sys.exit(main(trying.program()))
