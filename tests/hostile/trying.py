"""What the scripts beside this file have in common: calling the program, small C libraries, and counting what was tried."""

import math
import os
import resource
import shutil
import subprocess
import sys

HERE = os.path.dirname(os.path.abspath(__file__))
CASES = os.path.join(os.path.dirname(HERE), 'cases')
sys.path.insert(0, os.path.dirname(HERE))

import common
from common import Ended, processor_seconds

SECONDS = 60
# How much longer a call may take on a busy machine than its processor seconds say.
BUSY = 30
# What a script ends with where something that it needs can't be had.
LACKING = 3


def called(words, folder, seconds=SECONDS, environment=None, **more):
    """Calls a program in a folder, with a bound on its time."""
    return common.called(words, folder, seconds, environment, **more)


def measured(words, folder, seconds, memory=resource.RLIM_INFINITY):
    """As `called`, in seconds of the processor, after which the program is stopped, and with so much memory. One call at a time."""
    most = math.ceil(seconds)

    def limit():
        resource.setrlimit(resource.RLIMIT_CPU, (most, most + 1))
        resource.setrlimit(resource.RLIMIT_AS, (memory, memory))
    before = processor_seconds()
    ended = called(words, folder, BUSY * most, preexec_fn=limit)
    return ended._replace(seconds=processor_seconds() - before)


def case_words(name):
    """The words of a worked case."""
    with open(os.path.join(CASES, name, 'args')) as file:
        return file.read().splitlines()


def case_folder(name, place):
    """A copy of a worked case, so that nothing is left beside it."""
    folder = os.path.join(place, name)
    shutil.copytree(os.path.join(CASES, name), folder)
    return folder


def library(source, place, name):
    """A C library that can be preloaded, compiled from its text."""
    text, path = os.path.join(place, name + '.c'), os.path.join(place, name + '.so')
    with open(text, 'w') as file:
        file.write(source)
    subprocess.run(['gcc', '-O1', '-Wall', '-shared', '-fPIC', '-o', path, text, '-ldl'], check=True)
    return path


def needs(tool, package):
    """Ends the script where a tool can't be had."""
    if shutil.which(tool):
        return
    print(f'{tool} is not there: apt-get install -y {package}')
    sys.exit(LACKING)


def make_folders(path):
    """Makes a folder and those that it stands in, however deep."""
    missing = []
    while path and not os.path.isdir(path):
        missing.append(path)
        path = os.path.dirname(path)
    for folder in reversed(missing):
        os.mkdir(folder)


def write(path, data):
    make_folders(os.path.dirname(path))
    common.written(path, data)


class Tally:
    """Counts what was tried. A difference that `known` names, with its reason, is told and is no failure."""

    def __init__(self, known=None):
        self.known = known or {}
        self.met = set()
        self.counts = {'passed': 0, 'failed': 0, 'known': 0}

    def judge(self, name, problem, kind=None):
        """Counts one try: `problem` is None, or a line that says what is wrong. What is known is known by its name or its kind."""
        known = next((key for key in (name, kind) if key in self.known), None)
        if problem is None:
            self.counts['passed'] += 1
        elif known:
            self.counts['known'] += 1
            self.met.add(known)
        else:
            self.counts['failed'] += 1
            if self.counts['failed'] <= 40:
                print(f'{name}: {problem}', flush=True)

    def status(self):
        """Says the counts, and gives the status of the script."""
        for name, reason in self.known.items():
            if name in self.met:
                print(f'known: {name}: {reason}')
            else:
                self.counts['failed'] += 1
                print(f'{name} is no longer so: take it off the list of what is known')
        print(', '.join(f'{count} {word}' for word, count in self.counts.items()))
        return 1 if self.counts['failed'] else 0


def program():
    """The program that the script was called with."""
    if len(sys.argv) != 2:
        sys.exit(sys.modules['__main__'].__doc__)
    return os.path.abspath(sys.argv[1])


def program_and_word():
    """The program, and a word behind it, which may be missing."""
    if len(sys.argv) not in (2, 3):
        sys.exit(sys.modules['__main__'].__doc__)
    return os.path.abspath(sys.argv[1]), sys.argv[2] if len(sys.argv) == 3 else ''
