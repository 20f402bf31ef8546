"""Writes Java sources with the signatures of the core classes, from the table that the machine itself is built from.

    python3 core_signatures.py FOLDER

The library is compiled over these and nothing else, so that the compiler finds each use of a member that the machine doesn't have. The methods
of the sources are native: what they do is the machine's, and no class that is made of them is kept.
"""

import os
import re
import sys

HERE = os.path.dirname(os.path.abspath(__file__))
TABLE = os.path.join(HERE, '..', 'crates', 'vx_link', 'specs', 'CoreTable.antt')

# The class library's type parameters, which a table of class files doesn't have.
PARAMETERS = {
    'java/lang/Comparable': '<T>',
    'java/lang/Iterable': '<T>',
    'java/util/Iterator': '<E>',
    'java/lang/Class': '<T>',
    'java/lang/Enum': '<E extends java.lang.Enum<E>>',
}
GENERIC = {
    ('java/lang/Comparable', 'compareTo'): 'int compareTo(T other)',
    ('java/lang/Iterable', 'iterator'): 'java.util.Iterator<T> iterator()',
    ('java/util/Iterator', 'next'): 'E next()',
    ('java/lang/Enum', 'compareTo'): 'int compareTo(E other)',
}
# Constants that the compiler folds, so that no class file asks for them.
FOLDED = {'java/lang/Integer': ['int MIN_VALUE = 0x80000000', 'int MAX_VALUE = 0x7FFFFFFF', 'int SIZE = 32', 'int BYTES = 4']}
COMPARED = {'java/lang/Enum': 'E'}

PRIMITIVES = {'Z': 'boolean', 'B': 'byte', 'C': 'char', 'S': 'short', 'I': 'int', 'J': 'long', 'V': 'void'}
PUBLIC_STATIC = {'native': False, 'refused': False, 'written': False, 'by_text': False, 'static': True, 'written_static': True}


class CoreClass:
    def __init__(self, name, above, interfaces, flags, fields, methods):
        self.name = name
        self.above = above
        self.interfaces = interfaces
        self.flags = flags
        self.fields = fields
        self.methods = methods


def members(text):
    """The methods that a list of the table spells, as kind, name and descriptor each."""
    found = re.findall(r'\b(native|static|refused|abstract|written|written_static|by_text) "([^"]*)" "(\([^"]*)"', text)
    if 'four_constructors' in text:
        found += constructors('', 'Ljava/lang/String;', 'Ljava/lang/String;Ljava/lang/Throwable;', 'Ljava/lang/Throwable;')
    if 'two_constructors' in text:
        found += constructors('', 'Ljava/lang/String;')
    return found


def constructors(*parameters):
    return [('native', '<init>', f'({words})V') for words in parameters]


def one_record(text):
    part = {name: value for name, value in re.findall(r'^      (\w+) =(.*?);\n(?=      \w+ =|    \})', text, flags=re.M | re.S)}
    names = lambda value: re.findall(r'"([^"]*)"', value)
    return CoreClass(
        names(part['name'])[0],
        (names(part['superclass']) or [None])[0],
        names(part['interfaces']),
        int(part['flags'], 16),
        re.findall(r'constant "(\w+)" "([^"]*)"', part['fields']),
        members(part['methods']))


def core_classes():
    """The core classes of the table, in its order."""
    with open(TABLE, encoding='utf-8') as file:
        text = file.read()
    records = {name: one_record(body) for name, body in
               re.findall(r'^abbrev pub (\w+_class) : WrittenClass\n\1 =\n(    record \{.*?\n    \}\n)', text, flags=re.M | re.S)}
    for line in re.findall(r'^ +(?:∷ )?(\w+.*?)\n', text[text.index('core_table ='):], flags=re.M):
        words = line.split()
        if words[0] in records:
            yield records[words[0]]
        elif words[0] == 'interface':
            yield CoreClass(re.search(r'"([^"]*)"', line)[1], 'java/lang/Object', [], 0x0601, [], members(line))
        elif words[0] in ('general_throwable', 'plain_throwable'):
            name, above = re.findall(r'"([^"]*)"', line)
            kind = 'four_constructors' if words[0] == 'general_throwable' else 'two_constructors'
            yield CoreClass(name, above, [], 0x0021, [], members(kind))


def java_types(descriptor):
    """The types that a text of descriptors names, in Java."""
    for brackets, _, name, letter in re.findall(r'(\[*)(L([^;]*);|([ZBCSIJV]))', descriptor):
        yield (name.replace('/', '.') or PRIMITIVES[letter]) + '[]' * len(brackets)


def java_method(owner, kind, name, descriptor):
    inside, result = re.fullmatch(r'\((.*)\)(.*)', descriptor).groups()
    parameters = ', '.join(f'{kind_of} p{at}' for at, kind_of in enumerate(java_types(inside)))
    if name == '<init>':
        visible = 'protected' if owner.flags & 0x0400 else 'public'
        return f'{visible} {simple(owner.name)}({parameters}) {{ }}'
    signature = GENERIC.get((owner.name, name)) or f'{next(java_types(result))} {name}({parameters})'
    if kind == 'abstract':
        return f'public abstract {signature};'
    return f'public {"static " if PUBLIC_STATIC[kind] else ""}native {signature};'


def simple(name):
    return name.rsplit('/', 1)[-1]


def implemented(owner):
    for name in owner.interfaces:
        wanted = PARAMETERS.get(name)
        yield name.replace('/', '.') + (f'<{COMPARED.get(owner.name, simple(owner.name))}>' if wanted else '')


def java_class(owner):
    sort = 'interface' if owner.flags & 0x0200 else ('final ' if owner.flags & 0x10 else 'abstract ' if owner.flags & 0x400 else '') + 'class'
    head = f'public {sort} {simple(owner.name)}{PARAMETERS.get(owner.name, "")}'
    if owner.above and sort != 'interface' and owner.above != 'java/lang/Object':
        head += f' extends {owner.above.replace("/", ".")}'
    if owner.interfaces:
        head += f' implements {", ".join(implemented(owner))}'
    lines = [f'package {owner.name.rpartition("/")[0].replace("/", ".")};', '', head + ' {']
    lines += [f'    public static final {constant};' for constant in FOLDED.get(owner.name, [])]
    for name, descriptor in owner.fields:
        lines.append(f'    public static final {next(java_types(descriptor))} {name} = null;')
    lines += [f'    {java_method(owner, *method)}' for method in owner.methods]
    if sort != 'interface' and not any(name == '<init>' for _, name, _ in owner.methods):
        lines.append(f'    private {simple(owner.name)}() {{ }}')
    return '\n'.join(lines + ['}', ''])


def main(folder):
    for owner in core_classes():
        place = os.path.join(folder, owner.name + '.java')
        os.makedirs(os.path.dirname(place), exist_ok=True)
        with open(place, 'w', encoding='utf-8') as file:
            file.write(java_class(owner))


if __name__ == '__main__':
    main(sys.argv[1])
