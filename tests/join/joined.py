#!/usr/bin/env python3
"""The join of some reports, by its definition over all settings of at most ten options: what `varexj join` has to write.

    python3 joined.py REPORT OTHER..

At each setting the join says what the first of the reports says in which the setting has an end. Nothing here is shared with the program: sets
are tables of all settings, and nodes are numbered from these tables."""
import itertools
import sys

KINDS = ['float', 'subroutine', 'dynamic', 'constant', 'native', 'class', 'field', 'method']
NONE = (0, 0)


class Report:
    """The lines of a report, each with the settings that its node holds."""

    def __init__(self, text):
        self.options, self.pieces, self.ends, self.attempts = [], [], [], []
        nodes = {}
        for line in text.splitlines():
            words = line.split(' ')
            if words[0] == 'varexj':
                self.version = words[2]
            elif words[0] == 'option':
                self.options.append(words[1])
            elif words[0] in ('limit', 'rounds'):
                setattr(self, words[0], int(words[1]))
            elif words[0] == 'node':
                nodes[int(words[1])] = tuple(int(w) for w in words[2:5])
            elif words[0] in ('out', 'err'):
                self.pieces.append((self.table(nodes, int(words[1])), words[0], line.split(' ', 2)[2]))
            elif words[0] == 'end':
                self.ends.append((self.table(nodes, int(words[1])), ' '.join(words[2:])))
            elif words[0] == 'attempts':
                self.attempts.append((self.table(nodes, int(words[1])), int(words[2])))

    def settings(self):
        return itertools.product((False, True), repeat=len(self.options))

    def table(self, nodes, root):
        def holds(setting):
            number = root
            while number > 1:
                option, low, high = nodes[number]
                number = high if setting[option] else low
            return number == 1

        return tuple(holds(setting) for setting in self.settings())

    def said(self, place):
        """What the report says of the setting with a number: its output, its end, its number of attempts; None where it has no end."""
        ends = [words for table, words in self.ends if table[place]]
        if not ends:
            return None
        numbers = [n for table, n in self.attempts if table[place]]
        return ([(stream, text) for table, stream, text in self.pieces if table[place]], ends[0], numbers[0] if numbers else None)


def bytes_of(word):
    """The bytes that a word spells."""
    found, place = [], 0
    while place < len(word):
        escaped = word[place] == '\\'
        found.append(int(word[place + 1:place + 3], 16) if escaped else ord(word[place]))
        place += 3 if escaped else 1
    return found


def rank(words):
    """The place of an end among ends."""
    first, *others = words.split(' ')
    kinds = ['return', 'exit', 'uncaught', 'unsupported', 'illegal', 'unfinished']
    if first == 'exit':
        return kinds.index(first), int(others[0])
    if first == 'unsupported':
        return kinds.index(first), KINDS.index(others[0]), [bytes_of(word) for word in others[1:]]
    return kinds.index(first), [bytes_of(word) for word in others]


class Numbering:
    """Nodes of tables, in the numbering of reports: the low part, the high part, then the node."""

    def __init__(self):
        self.numbers, self.lines = {}, []

    def number(self, option, table):
        if not any(table):
            return 0
        if all(table):
            return 1
        half = len(table) // 2
        if table[:half] == table[half:]:
            return self.number(option + 1, table[:half])
        if (option, table) not in self.numbers:
            low, high = self.number(option + 1, table[:half]), self.number(option + 1, table[half:])
            self.numbers[option, table] = len(self.lines) + 2
            self.lines.append(f'node {len(self.lines) + 2} {option} {low} {high}')
        return self.numbers[option, table]


def joined(texts):
    """The join's text, or the word for why there is none."""
    reports = [Report(text) for text in texts]
    first = reports[0]
    if any((r.options, r.limit, r.version) != (first.options, first.limit, first.version) for r in reports):
        return 'unlike'
    size = 2 ** len(first.options)
    pieces, ends, attempts, open_settings = [], {}, {}, set(range(size))
    for r in reports:
        scope = {place for place in open_settings if r.said(place)}
        for table, stream, text in r.pieces:
            kept = tuple(table[place] and place in scope for place in range(size))
            if any(kept):
                pieces.append((kept, stream, text))
        for place in scope:
            _, end, number = r.said(place)
            ends.setdefault(end, set()).add(place)
            if number is not None:
                attempts.setdefault(number, set()).add(place)
        open_settings -= scope
    rounds = sum(r.rounds for r in reports)
    if rounds >= 2 ** 128 or (first.version == '2' and not attempts):
        return 'not joinable'
    nodes = Numbering()
    table_of = lambda places: tuple(place in places for place in range(size))
    found = [f'{stream} {nodes.number(0, table)} {text}' for table, stream, text in pieces]
    found += [f'end {nodes.number(0, table_of(ends[end]))} {end}' for end in sorted(ends, key=rank)]
    found += [f'attempts {nodes.number(0, table_of(attempts[n]))} {n}' for n in sorted(attempts)]
    front = [f'varexj report {first.version}', f'options {len(first.options)}', *(f'option {name}' for name in first.options), f'limit {first.limit}', f'rounds {rounds}']
    return '\n'.join([*front, *nodes.lines, *found, 'done', ''])


def main():
    sys.stdout.write(joined([open(path, encoding='latin-1').read() for path in sys.argv[1:]]))


if __name__ == '__main__':
    main()
