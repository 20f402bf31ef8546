"""Calls the program over the files beside this file, and compares status, output and line with what has to come.

    python3 check_commands.py VAREXJ

`calls.py` has the calls. `files` is what they read; the classes of `sources` are assembled beside it first. Then, for each command: each file and
folder that it reads fails in turn, a file as a link to what can be opened and not read, a folder by not being there; each write fails in turn, at
each byte of the output; and the line of a refusal is lost. A folder and a class file that are too large are made here. The last line is `commands: N passed, M failed`.
"""

import os
import resource
import shutil
import subprocess
import sys
import tempfile

from calls import CALLS, PARTS, READS, REFUSED, WRITES

HERE = os.path.dirname(os.path.abspath(__file__))
sys.path.insert(0, os.path.dirname(HERE))

from common import assembled, called

# It can be opened, and reading its first bytes fails.
UNREADABLE = '/proc/self/mem'
READ_FAULT, WRITE_FAULT = 3, 4


class Program:
    """The program in a folder with the files."""

    def __init__(self, varexj, folder):
        self.varexj, self.folder = varexj, folder
        shutil.copytree(os.path.join(HERE, 'files'), folder, dirs_exist_ok=True)
        self.assemble(os.path.join(HERE, 'sources'))
        shutil.copy(self.place('report'), self.place('again'))

    def place(self, path):
        return os.path.join(self.folder, path)

    def assemble(self, sources):
        """Puts the class file of each source at the same path."""
        for top, _, names in os.walk(sources):
            below = self.place(os.path.relpath(top, sources))
            os.makedirs(below, exist_ok=True)
            for name in names:
                assembled(self.varexj, os.path.join(top, name), os.path.join(below, name.replace('.jasm', '.class')))

    def said(self, words):
        """The status, the output and the line of a call."""
        return called([self.varexj, *words], self.folder)[:3]

    def said_into(self, words, room, line_room):
        """The same where the output has room for so many bytes, and the line on the standard error for so many."""
        paths = [self.place('.out'), self.place('.err')]
        most = max(room, line_room)
        with open(paths[0], 'wb') as out, open(paths[1], 'wb') as err:
            # A file that begins further on has less room below one limit.
            out.seek(most - room)
            err.seek(most - line_room)
            _, hard = was = resource.getrlimit(resource.RLIMIT_FSIZE)
            resource.setrlimit(resource.RLIMIT_FSIZE, (most, hard))
            try:
                # Python lets the signal of that limit be ignored, and the program takes this over.
                done = subprocess.run([self.varexj, *words], cwd=self.folder, stdin=subprocess.DEVNULL, stdout=out, stderr=err, restore_signals=False)
            finally:
                resource.setrlimit(resource.RLIMIT_FSIZE, was)
        texts = []
        for path, begun in zip(paths, (most - room, most - line_room)):
            with open(path, 'rb') as file:
                texts.append(file.read()[begun:])
        return done.returncode, *texts


def calls(program):
    """Each call of the tables, and whether it comes to what has to come."""
    for name, rows in CALLS.items():
        for words, status, out, line in rows:
            yield f'{name}: {words}', program.said(words.split(' ')) == (status, out.encode(), line.encode())


def too_large_is_told(program):
    """What `doctor` says of a folder of too many class files, and of a class file of too many bytes."""
    front = 'varexj doctor 1\noptions 0, rules 0, allowed 1\n'
    for folder, sizes, shown, room, of in (('crowd', [0] * 1025, 'crowd', 1024, 'class files'), ('giant', [1048577], '0.class', 1048576, 'bytes')):
        os.mkdir(program.place(folder))
        for number, size in enumerate(sizes):
            with open(program.place(f'{folder}/{number}.class'), 'wb') as file:
                file.truncate(size)
        text = f'{front}{shown} has more than {room} {of}\nstatus 13 too large\n'
        yield f'doctor {folder} e Main', program.said(['doctor', folder, 'e', 'Main']) == (13, text.encode(), f'too large {shown} {room}\n'.encode())


class Failing:
    """A file or a folder that fails meanwhile."""

    def __init__(self, place):
        self.place, self.aside = place, place + '.aside'

    def __enter__(self):
        os.rename(self.place, self.aside)
        if os.path.isfile(self.aside):
            os.symlink(UNREADABLE, self.place)

    def __exit__(self, *_):
        if os.path.islink(self.place):
            os.remove(self.place)
        os.rename(self.aside, self.place)


def named(path):
    """How a read fault names a path: a class file by its path below the folder."""
    return path.split('/', 1)[-1]


def each_read_fails_in_turn(program):
    for words, paths in READS:
        yield f'{words}: no read fails', program.said(words.split(' '))[0] != READ_FAULT
        for path in paths:
            with Failing(program.place(path)):
                said = program.said(words.split(' '))
            yield f'{words}: {path} fails', said == (READ_FAULT, b'', f'read fault {named(path)}\n'.encode())


def is_cut_anywhere(program, words):
    """Whether a command writes something, and where there is no room behind a byte ends as a write fault with the bytes before it."""
    status, whole, _ = program.said(words)
    cut = (program.said_into(words, taken, len(whole) + 64) == (WRITE_FAULT, whole[:taken], b'write fault\n') for taken in range(len(whole)))
    return status == 0 and len(whole) > 0 and all(cut)


def each_write_fails_in_turn(program):
    for words in WRITES:
        yield f'{words}: cut at each byte', is_cut_anywhere(program, words.split(' '))
    for words, room, line_room, out, line in PARTS:
        yield f'{words}: {room} bytes and {line_room}', program.said_into(words.split(' '), room, line_room) == (WRITE_FAULT, out.encode(), line.encode())


def a_line_that_is_lost_changes_no_status(program):
    for words, status in REFUSED:
        yield f'{words}: the line is lost', program.said_into(words.split(' '), 64, 0) == (status, b'', b'')


def main(varexj):
    passed, failed = 0, 0
    with tempfile.TemporaryDirectory() as folder:
        program = Program(varexj, folder)
        for trial in (calls, too_large_is_told, each_read_fails_in_turn, each_write_fails_in_turn, a_line_that_is_lost_changes_no_status):
            for name, is_well in trial(program):
                passed, failed = passed + is_well, failed + (not is_well)
                if not is_well:
                    print(name)
    print(f'commands: {passed} passed, {failed} failed')
    return 1 if failed or not passed else 0


if __name__ == '__main__':
    sys.exit(main(os.path.abspath(sys.argv[1])))
