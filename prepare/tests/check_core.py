"""Compares prepare/core, what `prepare` knows of the core classes, with the table that the machine itself is built from.

    python3 check_core.py          says what differs; the status is then 1
    python3 check_core.py --write  writes prepare/core anew
"""

import os
import re
import sys

HERE = os.path.dirname(os.path.abspath(__file__))
CORE = os.path.join(HERE, '..', 'core')
TABLE = os.path.join(HERE, '..', '..', 'crates', 'vx_link', 'specs', 'CoreTable.antt')

FLAGS = {'native': 0x0101, 'static': 0x0109, 'refused': 0x0101, 'abstract': 0x0401, 'written': 0x0001, 'by_text': 0x0001, 'written_static': 0x0009}
CONSTRUCTORS = ['()V', '(Ljava/lang/String;)V', '(Ljava/lang/String;Ljava/lang/Throwable;)V', '(Ljava/lang/Throwable;)V']
COMPARED = 'compare_objects'


def methods(text):
    """The lines of the methods that a list of the table spells."""
    lines = []
    if 'four_constructors' in text or 'two_constructors' in text:
        count = 4 if 'four_constructors' in text else 2
        lines += [f'method 0101 <init> {descriptor}' for descriptor in CONSTRUCTORS[:count]]
    for kind, name, descriptor in re.findall(r'\b(' + '|'.join(FLAGS) + r') "([^"]*)" "(\([^"]*)"', text):
        word = 'refused' if kind == 'refused' else 'method'
        lines.append(f'{word} {FLAGS[kind]:04x} {name} {descriptor}')
    if COMPARED in text:
        lines.append('method 0001 compareTo (Ljava/lang/Object;)I')
    return lines


def record_lines(text):
    part = dict(re.findall(r'^      (\w+) =(.*?);\n(?=      \w+ =|    \})', text, flags=re.M | re.S))
    names = lambda value: re.findall(r'"([^"]*)"', value)
    name, above = names(part['name'])[0], names(part['superclass']) or ['-']
    head = f'class {part["flags"].strip()[2:]} {name} {above[0]}'
    fields = [f'field 0019 {field} {kind}' for field, kind in re.findall(r'constant "(\w+)" "([^"]*)"', part['fields'])]
    return name, [' '.join([head] + names(part['interfaces']))] + fields + methods(part['methods'])


def short_lines(line):
    """The lines of a class that the table makes by one of its short forms."""
    form, name = re.match(r'(\w+) "([^"]*)"', line).groups()
    if form == 'interface':
        return [f'class 0601 {name} java/lang/Object'] + methods(line)
    above = re.findall(r'"([^"]*)"', line)[1]
    return [f'class 0021 {name} {above}'] + methods({'general_throwable': 'four_constructors', 'plain_throwable': 'two_constructors'}[form])


def core():
    with open(TABLE, encoding='utf-8') as file:
        text = file.read()
    found = re.findall(r'^abbrev pub (\w+_class) : WrittenClass\n\1 =\n(    (?:record \{|throwable_named ).*?\n\n)', text + '\n', flags=re.M | re.S)
    records = {label: record_lines(body)[1] for label, body in found if 'name = "' in body}
    lines = []
    for line in text[text.index('\ncore_table =\n'):].splitlines()[2:]:
        word = line.strip().removeprefix('∷ ')
        if word and word != '[]':
            lines += records[word] if word in records else short_lines(word)
    return '\n'.join(lines) + '\n'


def main(words):
    text = core()
    if words == ['--write']:
        with open(CORE, 'w') as file:
            file.write(text)
        return 0
    with open(CORE) as file:
        same = file.read() == text
    print('prepare/core: as the table of core classes' if same else 'prepare/core: differs from the table of core classes')
    return 0 if same else 1


sys.exit(main(sys.argv[1:]))
