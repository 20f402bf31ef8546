"""Makes each system call of the program fail in turn.

    python3 tests/hostile/system_calls.py VAREXJ

strace is needed; where it can't be had the script says so and ends with 3. What is asked:

- an open, a read, a listing or a look at a file that fails is a read fault (3) of the file or folder, and nothing is written;
- where it fails for want of memory that is said (1), and nothing is written;
- a write that fails is a write fault (4), and what was written is a proper prefix; one on the standard error changes nothing;
- a read, a write or the open of a file that a signal interrupts is tried again: the call ends as it does without. A listing or a
  look at a file that is interrupted is a read fault.
"""

import os
import re
import sys
import tempfile
from concurrent.futures import ThreadPoolExecutor

import runs
import trying

SECONDS = 60
CALLS = ('open', 'openat', 'read', 'pread64', 'getdents64', 'statx', 'newfstatat', 'fstat', 'lstat', 'stat', 'write', 'writev')
LISTS = ('getdents64', 'statx', 'newfstatat', 'lstat', 'stat')
ERRORS = ('EIO', 'ENOSPC', 'EACCES', 'EMFILE', 'ENOMEM', 'EINTR')

KNOWN = {}


class Traced:
    """One system call of a call of the program."""

    def __init__(self, line, ordinal):
        self.name = line.split('(')[0]
        self.line = line
        # Its number among those of its name.
        self.ordinal = ordinal
        path = re.search(r'"((?:[^"\\]|\\.)*)"', line)
        self.path = path[1] if path and self.name not in ('read', 'pread64', 'write', 'writev') else None
        file = re.match(r'\w+\((\d+)', line)
        self.file = int(file[1]) if file else None
        result = re.search(r' = (-?\d+)', line)
        self.result = int(result[1]) if result else None

    def is_write(self):
        return self.name in ('write', 'writev')

    def is_open(self):
        return self.name in ('open', 'openat')


def strace(log, *more):
    return ['strace', '-qq', '-s', '4000', '-o', log, *more]


def trace(words, folder):
    """How a call ends, and its system calls, each with the path of its file."""
    log = os.path.join(folder, 'strace-log')
    ended = trying.called([*strace(log, '-e', 'trace=' + ','.join('?' + name for name in CALLS)), *words], folder, SECONDS)
    with open(log, encoding='latin-1') as file:
        lines = [line for line in file if re.match(r'\w+\(', line)]
    found, counts, paths = [], {}, {}
    for line in lines:
        name = line.split('(')[0]
        counts[name] = counts.get(name, 0) + 1
        call = Traced(line, counts[name])
        if call.is_open():
            paths[call.result] = call.path
        elif call.path is None or call.path == '':
            call.path = paths.get(call.file)
        found.append(call)
    return ended, found


def is_at(path, word):
    """Whether a path is that of a word, or below it."""
    return path is not None and (path == word or path.startswith(word + '/'))


def own_calls(calls, words):
    """The calls behind those of the loader: those on files that the words name, and the writes."""
    return [call for call in calls if call.is_write() or any(is_at(call.path, word) for word in words if word)]


def shown_path(call, words):
    """What a read fault names: the folder, a path below it, or a word of the command."""
    if words[0] not in ('run', 'verify', 'replay', 'trace') or call.path == words[2]:
        return call.path
    folder = words[1]
    is_listing = call.name in LISTS or 'O_DIRECTORY' in call.line
    return folder if is_listing else call.path[len(folder) + 1:]


def written_before(calls, call, file):
    """How many bytes were written on a stream before a call."""
    return sum(other.result for other in calls[:calls.index(call)] if other.is_write() and other.file == file)


def expected(call, calls, error, words, whole):
    """How a call has to end where one of its system calls fails with an error."""
    if call.is_write() and call.file == 2 and error != 'EINTR':
        return whole.status, whole.out, whole.err[:written_before(calls, call, 2)]
    if error == 'EINTR':
        return whole.status, whole.out, whole.err
    if call.is_write():
        return 4, whole.out[:written_before(calls, call, 1)], b'write fault\n'
    if error == 'ENOMEM':
        return 1, b'', b'no memory\n'
    return 3, b'', f'read fault {shown_path(call, words)}\n'.encode()


def fails(call, error, words, folder):
    """How the command ends where one system call fails."""
    with tempfile.NamedTemporaryFile() as log:
        inject = ['-e', f'trace={call.name}', '-e', f'inject={call.name}:error={error}:when={call.ordinal}']
        return trying.called([*strace(log.name, *inject), *words], folder, SECONDS)


def is_tried_again(call):
    """Whether the call is tried again where a signal interrupts it."""
    return call.name in ('read', 'pread64', 'write', 'writev') or (call.is_open() and 'O_DIRECTORY' not in call.line)


def try_failures(varexj, words, folder, name, tally, pool):
    """Each system call of a command failing in turn."""
    whole, calls = trace([varexj, *words], folder)
    own = own_calls(calls, words)
    tries = [(call, error) for call in own for error in ERRORS]
    answers = pool.map(lambda one: fails(*one, [varexj, *words], folder), tries)
    for (call, error), ended in zip(tries, answers):
        what = f'{name}: {error} at {call.name} {call.ordinal} of {call.path or call.file}'
        kind = f'{"an interrupted" if error == "EINTR" else "a failing"} {call.name}'
        wanted = expected(call, own, 'EIO' if error == 'EINTR' and not is_tried_again(call) else error, words, whole)
        got = (ended.status, ended.out, ended.err)
        tally.judge(what, None if got == wanted else f'{ended.told()}, expected {trying.Ended(*wanted, 0).told()}', kind)
    print(f'{name}: {len(own)} system calls, {len(tries)} tries', flush=True)


def try_each_interrupted(varexj, words, folder, name, tally):
    """Every second read and every second write interrupted."""
    whole = trying.called([varexj, *words], folder, SECONDS)
    _ended, calls = trace([varexj, *words], folder)
    own = own_calls(calls, words)
    for kind in ('read', 'write'):
        first = next((call.ordinal for call in own if call.name == kind), None)
        if first is None:
            continue
        with tempfile.NamedTemporaryFile() as log:
            inject = ['-e', f'trace={kind}', '-e', f'inject={kind}:error=EINTR:when={first}+2']
            ended = trying.called([*strace(log.name, *inject), varexj, *words], folder, SECONDS)
        problem = None if ended.is_as(whole) else f'{ended.told()}, expected {whole.told()}'
        tally.judge(f'{name}: every second {kind} interrupted', problem, f'an interrupted {kind}')


def folder_with_parts(place):
    """A folder with a folder in it, more files than one listing holds, and a link to a file."""
    folder = trying.case_folder('print-an-option', place)
    os.makedirs(os.path.join(folder, 'f', 'inner'))
    os.rename(os.path.join(folder, 'f', 'Main.class'), os.path.join(folder, 'f', 'inner', 'Main.class'))
    os.symlink('../model', os.path.join(folder, 'f', 'notes'))
    for number in range(150):
        trying.write(os.path.join(folder, 'f', f'a file with a long name {number}'), b'')
    return folder


def main(varexj):
    trying.needs('strace', 'strace')
    tally = trying.Tally(KNOWN)
    with tempfile.TemporaryDirectory() as place, ThreadPoolExecutor(os.cpu_count()) as pool:
        parts = folder_with_parts(os.path.join(place, 'parts'))
        tries = [('a folder in the folder', parts, trying.case_words('print-an-option'))]
        tries += [(run.name(), run.folder(place), run.words) for run in runs.runs()]
        for name, folder, words in tries:
            try_failures(varexj, words, folder, name, tally, pool)
            try_each_interrupted(varexj, words, folder, name, tally)
    return tally.status()


if __name__ == '__main__':
    sys.exit(main(trying.program()))
