"""What the scripts beside this file know of the programs: where they are, their models, and the configurations that a model allows.

A program is a folder with src (its Java sources), classes (what javac made of them), model or model.dimacs (its feature model) and expected
(what a Java machine printed in each configuration, and how it ended there). It stands beside this file or among the examples. A folder
`mended` in a program is that program after a change: its src has the sources that changed, and all else is the program's above it.
"""

import glob
import itertools
import os
import re
import sys

HERE = os.path.dirname(os.path.abspath(__file__))
sys.path.insert(0, os.path.dirname(HERE))

from common import written

TOP = os.path.dirname(os.path.dirname(HERE))
FOLDERS = ('tests/programs/*', 'examples/*', 'tests/programs/*/mended', 'examples/*/mended')


class Program:
    def __init__(self, folder):
        self.folder = os.path.join(TOP, folder)
        self.name = '-'.join(folder.split('/')[folder.startswith('tests') + 1:])
        mends = os.path.basename(folder) == 'mended'
        self.changed = Program(os.path.dirname(folder)) if mends else None

    def place(self, *parts):
        return os.path.join(self.folder, *parts)

    def sources(self):
        """The paths of the sources by their names."""
        found = self.changed.sources() if self.changed else {}
        found.update((file, self.place('src', file)) for file in os.listdir(self.place('src')))
        return found

    def main(self):
        """The class whose main runs: `Main`, or the only one that has a source."""
        names = [file.removesuffix('.java') for file in self.sources()]
        return names[0] if len(names) == 1 else 'Main'

    def words(self, limit):
        """What stands behind `run`, `replay` and `trace`, up to the limit."""
        return [self.place('classes'), self.model_place(), self.main(), limit]

    def model_place(self):
        if self.changed:
            return self.changed.model_place()
        return next(self.place(file) for file in ('model', 'model.dimacs') if os.path.exists(self.place(file)))

    def model(self):
        path = self.model_place()
        with open(path) as file:
            return (dimacs_model if path.endswith('.dimacs') else text_model)(file.read())


def programs():
    found = [path for pattern in FOLDERS for path in glob.glob(pattern, root_dir=TOP)]
    there = [path for path in sorted(found) if os.path.isdir(os.path.join(TOP, path, 'src'))]
    # One that `prepare` made names its main class in a file; ../real has these.
    return [Program(path) for path in there if not os.path.exists(os.path.join(TOP, path, 'main'))]


def put_settings(options, configurations, folder):
    """The paths of two files: the options that have a field, and the configurations, as programs in Java take them that ask a Java machine."""
    return [written(os.path.join(folder, 'options'), ''.join(' '.join(option) + '\n' for option in options if len(option) == 3)),
            written(os.path.join(folder, 'configurations'), ''.join(configuration + '\n' for configuration in configurations))]


class Model:
    """Options, each as its name and, where it has them, its class and field; and rules, each as a test of the names that are on."""

    def __init__(self, options, rules):
        self.options = options
        self.rules = rules

    def configurations(self):
        """The configurations that the model allows, as the words in which varexj takes them."""
        names = [option[0] for option in self.options]
        for values in itertools.product([False, True], repeat=len(names)):
            on = [option for option, value in zip(names, values) if value]
            if all(rule(on) for rule in self.rules):
                yield ','.join(on) or '-'


def text_model(text):
    lines = [line.split(maxsplit=1) for line in text.splitlines() if line.strip()]
    return Model([words[1].split() for words in lines if words[0] == 'option'],
                 [Rule(words[1]).holds for words in lines if words[0] == 'rule'])


def dimacs_model(text):
    """A model in which each variable has a line `c NUMBER NAME`, maybe with class and field behind it."""
    lines = [line.split() for line in text.splitlines()]
    options = {int(words[1]): words[2:] for words in lines if words[0] == 'c'}
    numbers = [int(word) for words in lines if words[0] not in ('c', 'p') for word in words]
    clauses = [list(clause) for ends, clause in itertools.groupby(numbers, lambda number: number == 0) if not ends]
    names = {number: words[0] for number, words in options.items()}

    def rule(clause):
        return lambda on: any((names[abs(number)] in on) == (number > 0) for number in clause)

    return Model([options[number] for number in sorted(options)], [rule(clause) for clause in clauses])


class Rule:
    """A rule of a model, by the grammar of docs/FORMATS.md."""

    def __init__(self, text):
        self.words = re.findall(r'->|[()!&|]|\w+', text)
        self.at = 0
        self.holds = self.implication()
        assert self.at == len(self.words), text

    def takes(self, word):
        if self.at < len(self.words) and self.words[self.at] == word:
            self.at += 1
            return True
        return False

    def implication(self):
        left = self.either()
        if self.takes('->'):
            right = self.implication()
            return lambda on: not left(on) or right(on)
        return left

    def either(self):
        parts = [self.both()]
        while self.takes('|'):
            parts.append(self.both())
        return lambda on: any(part(on) for part in parts)

    def both(self):
        parts = [self.single()]
        while self.takes('&'):
            parts.append(self.single())
        return lambda on: all(part(on) for part in parts)

    def single(self):
        if self.takes('!'):
            inner = self.single()
            return lambda on: not inner(on)
        if self.takes('('):
            inner = self.implication()
            assert self.takes(')')
            return inner
        word = self.words[self.at]
        self.at += 1
        return lambda on: word == 'true' or word in on
