"""Tries what docs/LIMITS.md speaks of.

    python3 check_limits.py VAREXJ

`src` has a program that tries one thing under each of its options, `classes` what `javac --release 8 -g:lines` made of it, and `ends` how the run
with just that option on has to end, without the place: written by hand after docs/FORMATS.md. The program is run once. Where such a run ends as
unsupported, `doctor` has to tell of that place, under what is lacking there, and of a class of the folder with a line of the method's source. What
differs is printed, and the status is then 1.
"""

import os
import re
import sys

HERE = os.path.dirname(os.path.abspath(__file__))
sys.path[:0] = [os.path.dirname(HERE), os.path.join(os.path.dirname(HERE), 'people')]

import check_people
from common import called

LIMIT = '1000'


def without_place(end):
    return end.rsplit(' ', 1)[0] if end.startswith('unsupported ') else end


def on_classes(varexj, command, *others):
    """What a command on these classes does."""
    return called([varexj, command, os.path.join(HERE, 'classes'), os.path.join(HERE, 'model'), 'Main', *others])


def told_places(text):
    """The names under which a place is told, and its line, by the place."""
    told, name = {}, None
    for line in text.splitlines():
        head = re.fullmatch(r'[0-9]+ (\S+): .*', line)
        place = re.fullmatch(r'(?:at|may) (\S+)(?: line ([0-9]+))?(?: by \S+)?', line)
        if head:
            name = head[1]
        elif place:
            told.setdefault(place[1], {})[name] = place[2] and int(place[2])
    return told


def source_lines(method_place):
    """The lines of the source of a method of the folder, all where javac made the method; None where the class isn't there."""
    owner, name = re.fullmatch(r'([^.]+)\.([^(]+)\(.*', method_place).groups()
    path = os.path.join(HERE, 'src', owner.split('$')[0] + '.java')
    if not os.path.exists(path):
        return None
    with open(path) as file:
        lines = file.read().splitlines()
    first = next((at for at, line in enumerate(lines) if re.match(rf'    .*\b{name}\(.*\{{$', line)), None)
    if first is None:
        return range(1, len(lines) + 1)
    last = next(at for at in range(first, len(lines)) if lines[at] == '    }')
    return range(first + 1, last + 2)


def is_named(told, end):
    """Whether `doctor` tells of the place of an end, with its line."""
    if not end.startswith('unsupported '):
        return True
    _, _, name, place = end.split(' ')
    names = told.get(place, {})
    lines = source_lines(place)
    return name in names and (lines is None or names[name] in lines)


def main(varexj):
    done = on_classes(varexj, 'run', LIMIT, '1')
    told = told_places(on_classes(varexj, 'doctor').out.decode())
    options, nodes, _, ends = check_people.read_report(done.out.decode())
    with open(os.path.join(HERE, 'ends')) as file:
        wanted = dict(line.rstrip('\n').split(' ', 1) for line in file)
    faults = 0 if done.status == 0 and options == list(wanted) else 1
    for at, option in enumerate(options):
        alone = [other == at for other in range(len(options))]
        whole = next(end for node, end in ends if check_people.holds(nodes, node, alone))
        end = without_place(whole)
        if end != wanted.get(option):
            faults += 1
            print(f'{option}: {end}, and not {wanted.get(option)}')
        if not is_named(told, whole):
            faults += 1
            print(f'{option}: doctor does not tell of {whole}')
    print(f'{len(options)} tries, {faults} faults')
    return 1 if faults else 0


if __name__ == '__main__':
    sys.exit(main(os.path.abspath(sys.argv[1])))
