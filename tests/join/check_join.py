#!/usr/bin/env python3
"""The join of the reports of parts of a model, compared with the report of the whole at every configuration.

    python3 check_join.py PROGRAM [--only PREFIX]

Of each worked case that runs a program under a model as text with one to six options, the model is cut by its first options: each part is the model with one
more rule for each of them. The parts that allow something are run apart and joined, in this order and the other way round. The join has to say
at each setting what the report of the whole model says there, and to be, byte for byte, what `joined.py` makes of the parts. The last line is
`N models, M faults`."""
import itertools
import os
import sys
import tempfile

HERE = os.path.dirname(os.path.abspath(__file__))
sys.path[:0] = [HERE, os.path.dirname(HERE)]

from common import called
from joined import Report, joined

CASES = os.path.join(HERE, '..', 'cases')
NO_CONFIGURATION = 6


def run(program, words, folder):
    done = called([program, *words], folder)
    return done.status, done.out.decode('latin-1')


def parts(names):
    """The rules of the parts: each of these options is off or on."""
    return [[name if on else f'!{name}' for name, on in zip(names, setting)] for setting in itertools.product((False, True), repeat=len(names))]


def reports_of(program, folder, words, model, names, room):
    """The reports of the parts that allow something, as files."""
    found = []
    for number, rules in enumerate(parts(names)):
        path = os.path.join(room, f'model{number}')
        with open(path, 'w', encoding='latin-1') as file:
            file.write(model.rstrip('\n') + '\n' + ''.join(f'rule {rule}\n' for rule in rules))
        status, text = run(program, [words[0], words[1], path, *words[3:]], folder)
        if status == NO_CONFIGURATION:
            continue
        if status != 0:
            return None
        report = os.path.join(room, f'report{number}')
        with open(report, 'w', encoding='latin-1') as file:
            file.write(text)
        found.append(report)
    return found


def faults_of(program, whole, reports):
    """How the join of some reports differs from what it has to be."""
    status, text = run(program, ['join', *reports], '.')
    if status != 0:
        return [f'join ends with {status}']
    found = []
    if text != joined([open(path, encoding='latin-1').read() for path in reports]):
        found.append('the text differs from that of the definition')
    one, other = Report(whole), Report(text)
    for place, setting in enumerate(one.settings()):
        if one.said(place) != other.said(place):
            found.append(f'differs at {setting}')
    return found


def models(only):
    """The cases that run a program under a model as text, with their words and the names of the options."""
    for name in sorted(os.listdir(CASES)):
        folder = os.path.join(CASES, name)
        if not name.startswith(only) or not os.path.isfile(os.path.join(folder, 'args')):
            continue
        words = open(os.path.join(folder, 'args'), encoding='latin-1').read().split('\n')[:-1]
        if words[:1] != ['run'] or len(words) < 5 or not os.path.isfile(os.path.join(folder, words[2])) or words[2].endswith(('.cnf', '.dimacs')):
            continue
        model = open(os.path.join(folder, words[2]), encoding='latin-1').read()
        names = [line.split()[1] for line in model.splitlines() if line.split()[:1] == ['option'] and len(line.split()) > 1]
        if 1 <= len(names) <= 6:
            yield name, folder, words, model, names


def main():
    program = os.path.abspath(sys.argv[1])
    only = sys.argv[sys.argv.index('--only') + 1] if '--only' in sys.argv else ''
    count = faults = 0
    for name, folder, words, model, names in models(only):
        status, whole = run(program, words, folder)
        if status != 0:
            continue
        with tempfile.TemporaryDirectory() as room:
            for cut in ([names[0]], names[:2]):
                reports = reports_of(program, folder, words, model, cut, room)
                if reports is None or len(reports) < 2:
                    continue
                count += 1
                for order in (reports, reports[::-1]):
                    for fault in faults_of(program, whole, order):
                        faults += 1
                        print(f'{name}, cut by {",".join(cut)}: {fault}')
    print(f'{count} models, {faults} faults')
    sys.exit(faults > 0)


if __name__ == '__main__':
    main()
