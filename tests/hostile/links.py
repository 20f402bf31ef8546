"""Gives the program links, odd names, odd files and files that vanish.

    python3 tests/hostile/links.py VAREXJ

gcc is needed. What another user may not read is tried as user 65534 where the script runs as root (setpriv is needed for that).
What has to come stands in docs/FORMATS.md, "Folders, links and odd files".
"""

import os
import shutil
import socket
import subprocess
import sys
import tempfile
import threading

import trying

SECONDS = 30
CASE = 'print-an-option'
MOST_BYTES = 1 << 20
MOST_REPORT_BYTES = 1 << 28
LONGEST_PATH = 4095
NOBODY = ['setpriv', '--reuid', '65534', '--regid', '65534', '--clear-groups']
# The folder has no class file with the field of the option; or the class with the name of the main class isn't there.
NO_OPTION = (8, b'', b'no option A\n')
NO_MAIN = (8, b'', b'no main\n')
WITHOUT_OPTIONS = (0, b'varexj report 1\noptions 0\nlimit 100\nrounds 4\nout 1 0\\0a\nend 1 return\ndone\n', b'')

KNOWN = {}

# It removes a file or an empty folder right before the call that opens it or looks at it, and may put a folder in its place.
LIBRARY = r'''
#define _GNU_SOURCE
#include <dlfcn.h>
#include <stdio.h>
#include <stdlib.h>
#include <string.h>
#include <sys/stat.h>

static void vanish(const char *call, const char *path) {
    if (strcmp(call, getenv("VANISH_CALL")) != 0 || strcmp(path, getenv("VANISH_PATH")) != 0) return;
    remove(path);
    if (getenv("VANISH_FOLDER") != NULL) mkdir(path, 0755);
}

int open(const char *path, int flags, ...) {
    int (*next)(const char *, int, ...) = dlsym(RTLD_NEXT, "open");
    vanish("open", path);
    return next(path, flags, 0);
}

int openat(int folder, const char *path, int flags, ...) {
    int (*next)(int, const char *, int, ...) = dlsym(RTLD_NEXT, "openat");
    vanish("open", path);
    return next(folder, path, flags, 0);
}

int statx(int folder, const char *restrict path, int flags, unsigned mask, struct statx *restrict found) {
    int (*next)(int, const char *, int, unsigned, struct statx *) = dlsym(RTLD_NEXT, "statx");
    vanish("look", path);
    return next(folder, path, flags, mask, found);
}
'''


def fault(path):
    return 3, b'', b'read fault ' + os.fsencode(path) + b'\n'


def bad_class(path):
    """What an empty class file comes to."""
    return 7, b'', b'bad class ' + os.fsencode(path) + b' at 0 reason 3\n'


def too_large(path, room):
    return 13, b'', f'too large {path} {room}\n'.encode()


class Place:
    """A folder with the class file and the model of a worked case, and the folder f, which is empty."""

    def __init__(self, varexj, path):
        self.varexj, self.path = varexj, path
        case = os.path.join(trying.CASES, CASE)
        os.makedirs(self.at('f'))
        shutil.copy(os.path.join(case, 'f', 'Main.class'), self.at('Main.class'))
        shutil.copy(os.path.join(case, 'model'), self.at('model'))
        with open(os.path.join(case, 'stdout'), 'rb') as file:
            self.good = (0, file.read(), b'')
        with open(os.path.join(case, 'model'), 'rb') as file:
            self.model = file.read()

    def at(self, *parts):
        return os.path.join(self.path, *parts)

    def put(self, path, data=b''):
        trying.write(self.at(path), data)

    def put_class(self, path='f/Main.class'):
        os.makedirs(os.path.dirname(self.at(path)), exist_ok=True)
        shutil.copy(self.at('Main.class'), self.at(path))

    def link(self, path, target):
        os.symlink(target, self.at(path))


class Try:
    """A call of the program, and how it has to end."""

    def __init__(self, wanted, words=None, as_nobody=False, environment=None, feeds=None):
        self.wanted = wanted
        self.words = words or run()
        self.as_nobody = as_nobody
        self.environment = environment
        # Bytes that are written to a path while the program runs.
        self.feeds = feeds


def run(folder='f', model='model'):
    return ['run', folder, model, 'Main', '100', '1']


def vanishing(call, path, **more):
    return {'VANISH_CALL': call, 'VANISH_PATH': path, **more}


TRIES = []


def tried(name):
    """Names a function that fills a place and gives a Try."""
    def keep(function):
        TRIES.append((name, function))
        return function
    return keep


@tried('a link to a class file')
def _(place):
    place.link('f/Main.class', '../Main.class')
    return Try(place.good)


@tried('a link to a link to a class file')
def _(place):
    place.link('second', 'Main.class')
    place.link('f/Main.class', '../second')
    return Try(place.good)


@tried('a link to a folder in the folder')
def _(place):
    place.put_class()
    place.put('other/Broken.class')
    place.link('f/other', '../other')
    place.link('f/Other.class', '../other')
    return Try(place.good)


@tried('a link to the folder itself')
def _(place):
    place.put_class()
    place.link('f/again', '.')
    place.link('f/above', '..')
    return Try(place.good)


@tried('links in a loop')
def _(place):
    place.put_class()
    place.link('f/A.class', 'B.class')
    place.link('f/B.class', 'A.class')
    place.link('f/C.class', 'C.class')
    return Try(place.good)


@tried('a link to nothing')
def _(place):
    place.put_class()
    place.link('f/Gone.class', 'nothing')
    return Try(place.good)


@tried('a link to what would stand below a file')
def _(place):
    place.put_class()
    place.link('f/Gone.class', 'Main.class/nothing')
    return Try(fault('f'))


@tried('a link to a name that is too long')
def _(place):
    place.put_class()
    place.link('f/Gone.class', 'a' * 256)
    return Try(fault('f'))


@tried('the folder is a link to a folder')
def _(place):
    place.put_class()
    place.link('g', 'f')
    return Try(place.good, run('g'))


@tried('the folder is a link to nothing')
def _(place):
    place.link('g', 'nothing')
    return Try(fault('g'), run('g'))


@tried('the folder is a link in a loop')
def _(place):
    place.link('g', 'g')
    return Try(fault('g'), run('g'))


@tried('the folder is a file')
def _(place):
    return Try(fault('Main.class'), run('Main.class'))


@tried('the folder is a link to a file')
def _(place):
    place.link('g', 'Main.class')
    return Try(fault('g'), run('g'))


# What each command reads beside a folder: the words, where the path of a file is given.
READS = {
    'run': lambda path: run(model=path), 'verify': lambda path: ['verify', 'f', path, 'Main'],
    'replay': lambda path: ['replay', 'f', path, 'Main', '100', '-'], 'asm': lambda path: ['asm', path],
    'project': lambda path: ['project', path, '-'], 'interact': lambda path: ['interact', path], 'picture': lambda path: ['picture', path],
    'cover': lambda path: ['cover', path], 'explain': lambda path: ['explain', path], 'count': lambda path: ['count', path], 'list': lambda path: ['list', path],
    'page': lambda path: ['page', path], 'output': lambda path: ['output', path, '-'], 'trace': lambda path: ['trace', 'f', path, 'Main', '100', '-'],
    'agree': lambda path: ['agree', path, 'report'], 'agree, the other one': lambda path: ['agree', 'report', path],
    'check': lambda path: ['check', path], 'check, what is expected': lambda path: ['check', 'report', path],
    'compare': lambda path: ['compare', path, 'report'], 'compare, the other one': lambda path: ['compare', 'report', path],
    'join': lambda path: ['join', path, 'report'], 'join, the other one': lambda path: ['join', 'report', path],
    'cut': lambda path: ['cut', path, '1'], 'cut, the report': lambda path: ['cut', 'model', '1', path]}
# The files that are no reports.
READ_MODELS = ('run', 'verify', 'replay', 'trace', 'cut')
OTHER_FILES = {'asm': b'class 0021 Main java/lang/Object\n', 'check, what is expected': b'return when true\n'}


def good_file(place, word):
    """A file that a command can read, and how the command then ends."""
    place.put_class()
    place.put('report', place.good[1])
    data = {**OTHER_FILES, **dict.fromkeys(READ_MODELS, place.model)}.get(word, place.good[1])
    place.put('good', data)
    ended = trying.called([place.varexj, *READS[word]('good')], place.path, SECONDS)
    assert ended.status == 0, ended.told()
    return data, ended[:3]


for word in READS:
    @tried(f'a folder in place of the file of {word}')
    def _(place, word=word):
        good_file(place, word)
        return Try(fault('f'), READS[word]('f'))

    @tried(f'an empty path as the file of {word}')
    def _(place, word=word):
        good_file(place, word)
        return Try(fault(''), READS[word](''))

    @tried(f'a path of 5,000 bytes as the file of {word}')
    def _(place, word=word):
        good_file(place, word)
        return Try(fault('a/' * 2500), READS[word]('a/' * 2500))

    @tried(f'a name of 256 bytes as the file of {word}')
    def _(place, word=word):
        good_file(place, word)
        return Try(fault('a' * 256), READS[word]('a' * 256))

    @tried(f'a word of {word} that is not UTF-8')
    def _(place, word=word):
        return Try((2, b'', b'usage\n'), READS[word](b'\xff'))

    @tried(f'the file of {word} is a link to a link to a file')
    def _(place, word=word):
        _data, wanted = good_file(place, word)
        place.link('second', 'good')
        place.link('first', 'second')
        return Try(wanted, READS[word]('first'))

    @tried(f'the file of {word} is a link in a loop')
    def _(place, word=word):
        good_file(place, word)
        place.link('first', 'second')
        place.link('second', 'first')
        return Try(fault('first'), READS[word]('first'))

    @tried(f'the file of {word} is a link to nothing')
    def _(place, word=word):
        good_file(place, word)
        place.link('first', 'nothing')
        return Try(fault('first'), READS[word]('first'))

    @tried(f'the file of {word} is a FIFO')
    def _(place, word=word):
        data, wanted = good_file(place, word)
        os.mkfifo(place.at('pipe'))
        return Try(wanted, READS[word]('pipe'), feeds=('pipe', data))

    @tried(f'the file of {word} may not be read')
    def _(place, word=word):
        good_file(place, word)
        os.chmod(place.at('good'), 0)
        return Try(fault('good'), READS[word]('good'), as_nobody=True)

    @tried(f'the file of {word} vanishes before it is read')
    def _(place, word=word):
        good_file(place, word)
        return Try(fault('good'), READS[word]('good'), environment=vanishing('open', 'good'))


@tried('an empty path as the folder')
def _(place):
    return Try(fault(''), run(''))


@tried('a path of 5,000 bytes as the folder')
def _(place):
    return Try(fault('a/' * 2500), run('a/' * 2500))


@tried('a folder with more slashes and dots')
def _(place):
    place.put_class()
    return Try(place.good, run('.//f/../f//'))


@tried('the whole path of the folder')
def _(place):
    place.put_class()
    return Try(place.good, run(place.at('f'), place.at('model')))


@tried('a name that is not UTF-8')
def _(place):
    place.put_class()
    with open(os.fsencode(place.at('f')) + b'/\xff', 'wb'):
        pass
    return Try(fault('f'))


@tried('a folder with a file, whose name is not UTF-8')
def _(place):
    place.put_class()
    os.mkdir(os.fsencode(place.at('f')) + b'/\xff')
    shutil.copy(place.at('Main.class'), os.fsencode(place.at('f')) + b'/\xff/Other')
    return Try(fault('f'))


@tried('an empty folder whose name is not UTF-8')
def _(place):
    place.put_class()
    os.mkdir(os.fsencode(place.at('f')) + b'/\xff')
    return Try(fault('f'))


@tried('a name with a blank, a backslash, a line end and a letter outside of ASCII')
def _(place):
    place.put('f/\u00fc \\\n.class')
    return Try(bad_class('\\c3\\bc\\20\\5c\\0a.class'))


@tried('a name of 255 bytes')
def _(place):
    place.put('f/' + 'a' * 249 + '.class')
    return Try(bad_class('a' * 249 + '.class'))


@tried('a name that is nothing but the ending')
def _(place):
    place.put('f/.class')
    return Try(bad_class('.class'))


@tried('a folder whose name begins with a dot')
def _(place):
    place.put('f/.hidden/A.class')
    return Try(bad_class('.hidden/A.class'))


@tried('other endings')
def _(place):
    place.put_class()
    for name in ('A.CLASS', 'A.class~', 'A.class.old', 'class', 'A.clas', 'A.class '):
        place.put('f/' + name)
    return Try(place.good)


@tried('a folder that is named as a class file')
def _(place):
    os.mkdir(place.at('f/Main.class'))
    return Try(NO_OPTION)


@tried('a class file in a folder that is named as one')
def _(place):
    place.put_class('f/Main.class/Main.class')
    return Try(place.good)


@tried('paths in the order of their bytes')
def _(place):
    # The slash is before the letters and behind the hyphen.
    for path in ('f/a/b.class', 'f/ab.class', 'f/a-b.class'):
        place.put(path)
    return Try(bad_class('a-b.class'))


@tried('an empty folder')
def _(place):
    return Try(NO_OPTION)


@tried('an empty folder, and a model without options')
def _(place):
    return Try(NO_MAIN, run(model='/dev/null'))


@tried('a FIFO, a socket and links to devices in the folder')
def _(place):
    place.put_class()
    os.mkfifo(place.at('f/Pipe.class'))
    place.link('f/PipeLink.class', 'Pipe.class')
    here = os.getcwd()
    os.chdir(place.at('f'))
    with socket.socket(socket.AF_UNIX) as listening:
        listening.bind('Socket.class')
    os.chdir(here)
    place.link('f/Null.class', '/dev/null')
    place.link('f/Zero.class', '/dev/zero')
    return Try(place.good)


@tried('the model is a FIFO with more bytes than a model has')
def _(place):
    os.mkfifo(place.at('m'))
    return Try(too_large('m', MOST_BYTES), run(model='m'), feeds=('m', b'#' * (MOST_BYTES + 100000)))


@tried('the model is /dev/null')
def _(place):
    place.put_class()
    return Try(WITHOUT_OPTIONS, run(model='/dev/null'))


@tried('the model is /dev/zero')
def _(place):
    return Try(too_large('/dev/zero', MOST_BYTES), run(model='/dev/zero'))


@tried('a class file that is one byte too large')
def _(place):
    place.put('f/Main.class', bytes(MOST_BYTES + 1))
    return Try(too_large('Main.class', MOST_BYTES))


@tried('a source that is one byte too large')
def _(place):
    place.put('s', b'#' * (MOST_BYTES + 1))
    return Try(too_large('s', MOST_BYTES), ['asm', 's'])


@tried('a report that is one byte too large')
def _(place):
    place.put('r')
    os.truncate(place.at('r'), MOST_REPORT_BYTES + 1)
    return Try(too_large('r', MOST_REPORT_BYTES), ['project', 'r', '-'])


@tried('expectations that are one byte too large')
def _(place):
    place.put('r', place.good[1])
    place.put('e', b'#' * (MOST_BYTES + 1))
    return Try(too_large('e', MOST_BYTES), ['check', 'r', 'e'])


@tried('1,024 class files')
def _(place):
    for number in range(1024):
        place.put(f'f/{number:04}.class')
    return Try(bad_class('0000.class'))


@tried('1,025 class files')
def _(place):
    for number in range(1025):
        place.put(f'f/{number:04}.class')
    return Try(too_large('f', 1024))


@tried('1,025 files of which 1,024 are class files')
def _(place):
    for number in range(1024):
        place.put(f'f/{number:04}.class')
    place.put('f/notes')
    return Try(bad_class('0000.class'))


@tried('a main class whose name has 100,000 bytes')
def _(place):
    place.put_class()
    return Try(NO_MAIN, ['run', 'f', 'model', 'a' * 100000, '100', '1'])


@tried('a configuration of 50,000 names')
def _(place):
    place.put('r', place.good[1])
    return Try((11, b'', b'not allowed\n'), ['project', 'r', ','.join(['A'] * 50000)])


@tried('a configuration of one name of 100,000 bytes')
def _(place):
    place.put('r', place.good[1])
    return Try((11, b'', b'not allowed\n'), ['project', 'r', 'A' * 100000])


def deep_folder(place, levels, name):
    """Folders in each other; the path of the innermost may be longer than the system takes at once."""
    here = os.getcwd()
    os.chdir(place.at('f'))
    for _level in range(levels):
        os.mkdir(name)
        os.chdir(name)
    os.chdir(here)


@tried('folders 2,000 deep')
def _(place):
    place.put_class()
    deep_folder(place, 2000, 'd')
    return Try(place.good)


@tried('folders whose path is longer than 4,095 bytes')
def _(place):
    place.put_class()
    deep_folder(place, LONGEST_PATH // 201 + 2, 'd' * 200)
    return Try(fault('f'))


@tried('a class file that may not be read')
def _(place):
    place.put_class()
    os.chmod(place.at('f/Main.class'), 0)
    return Try(fault('Main.class'), as_nobody=True)


@tried('another file that may not be read')
def _(place):
    place.put_class()
    place.put('f/notes')
    os.chmod(place.at('f/notes'), 0)
    return Try(place.good, as_nobody=True)


for mode, what in ((0, 'neither listed nor searched'), (0o311, 'not listed'), (0o644, 'not searched')):
    @tried(f'a folder that may be {what}')
    def _(place, mode=mode):
        place.put_class()
        os.chmod(place.at('f'), mode)
        return Try(fault('f'), as_nobody=True)

    @tried(f'a folder in the folder that may be {what}')
    def _(place, mode=mode):
        place.put_class()
        place.put('f/inner/notes')
        os.chmod(place.at('f/inner'), mode)
        return Try(fault('f'), as_nobody=True)


@tried('a link into a folder that may not be searched')
def _(place):
    place.put_class()
    place.put('other/A.class')
    place.link('f/A.class', '../other/A.class')
    os.chmod(place.at('other'), 0)
    return Try(fault('f'), as_nobody=True)


@tried('a class file that vanishes before it is read')
def _(place):
    place.put_class()
    return Try(fault('Main.class'), environment=vanishing('open', 'f/Main.class'))


@tried('a class file that becomes a folder before it is read')
def _(place):
    place.put_class()
    return Try(fault('Main.class'), environment=vanishing('open', 'f/Main.class', VANISH_FOLDER='1'))


@tried('a file that vanishes before it is looked at')
def _(place):
    place.put_class()
    place.put('f/notes')
    return Try(fault('f'), environment=vanishing('look', 'f/notes'))


@tried('a folder that vanishes before it is listed')
def _(place):
    place.put_class()
    os.mkdir(place.at('f/inner'))
    return Try(fault('f'), environment=vanishing('open', 'f/inner/'))


def feed(path, data):
    """Writes to a FIFO once it is opened; the program may leave before the end."""
    def write():
        try:
            with open(path, 'wb') as file:
                file.write(data)
        except BrokenPipeError:
            pass
    threading.Thread(target=write, daemon=True).start()


def problem(varexj, preloaded, function, path):
    """What is wrong with one try, or None."""
    place = Place(varexj, path)
    one = function(place)
    environment = {**one.environment, 'LD_PRELOAD': preloaded} if one.environment else None
    before = NOBODY if one.as_nobody and os.geteuid() == 0 else []
    if one.feeds:
        feed(place.at(one.feeds[0]), one.feeds[1])
    ended = trying.called([*before, varexj, *one.words], place.path, SECONDS, environment)
    if ended[:3] == one.wanted:
        return None
    return f'{ended.told()}, expected {trying.Ended(*one.wanted, 0).told()}'


def remove(top):
    """Removes all, also folders too deep for other ways, and those that who isn't root may not search."""
    subprocess.run(['chmod', '-R', 'u+rwX', top], check=True)
    subprocess.run(['rm', '-rf', top], check=True)


def main(varexj):
    trying.needs('gcc', 'gcc')
    if os.geteuid() == 0:
        trying.needs('setpriv', 'util-linux')
    tally = trying.Tally(KNOWN)
    top = tempfile.mkdtemp()
    try:
        os.chmod(top, 0o755)
        # A copy that every user may call.
        copied = shutil.copy(varexj, os.path.join(top, 'varexj'))
        os.chmod(copied, 0o755)
        preloaded = trying.library(LIBRARY, top, 'vanishing')
        for number, (name, function) in enumerate(TRIES):
            tally.judge(name, problem(copied, preloaded, function, os.path.join(top, str(number))))
    finally:
        remove(top)
    return tally.status()


if __name__ == '__main__':
    sys.exit(main(trying.program()))
