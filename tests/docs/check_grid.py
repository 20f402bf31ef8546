"""Checks the grid of families in CONTRIBUTING.md against the code.

    python3 check_grid.py

The families, and the operations of each, are those of `family_of` in vx_attempt/src/family.rt, and the function of an operation's row is that of `row_of` in
vx_java/specs/Row. The grid is the table whose first column is `Family`. It has a row for each family, and in each field files: a path from crates, a name below
the folder of the path before it, or a name below the folder in brackets in the head of the column; .antt may be left out. Each operation of the family has to be named in one of the files of each field: by its own
name, or by that of its row's function, which may go on, as `get_static_typed`, unless it is one of those that many rows have. A field of the last column has folders of tests, in
each of which a source has an instruction of the family. In the table whose first column is `Rows` each crate has a file that imports one of those rows. The files of the list `Each of these names every operation` name each operation by its own name.

What isn't so is printed, and the status is then 1.
"""

import glob
import os
import re
import sys

from check_paths import TOP, quoted, read

DOCUMENT = 'CONTRIBUTING.md'
EVERY = 'Each of these names every operation:'
# Functions of rows that others have too: they count only where they are defined.
SHARED = {'go', 'push', 'jump', 'load', 'store', 'stack', 'on_int', 'on_long', 'unsupported'}
INSTRUCTIONS = {
    'Numbers': r'[il](add|sub|mul|div|rem|neg|and|or|xor|u?sh[lr])|i2[lbcs]|l2i|lcmp|if(eq|ne|lt|ge|gt|le|null|nonnull)|if_icmp\w\w|goto(_w)?|(table|lookup)switch',
    'Locals': r'nop|aconst_null|[il]const_\w+|[bs]ipush|ldc(2?_w)?|[ila](load|store)(_\d)?|iinc',
    'Forms': r'pop2?|dup2?(_x[12])?|swap',
    'Returns': r'[ila]?return',
    'Statics': r'(get|put)static',
    'Objects': r'new|(get|put)field|checkcast|instanceof|monitor(enter|exit)|if_acmp(eq|ne)',
    'Arrays': r'a?newarray|multianewarray|arraylength|[ilabcs]a(load|store)',
    'Calls': r'invoke(virtual|special|static|interface)',
    'Throws': r'athrow',
}


def families():
    """The operations of each family."""
    found = {}
    arm = r'((?:\|?\s*Operation::\w+(?:\([^)]*\)|\s*\{[^}]*\})?\s*)+)=> Family::(\w+)'
    for operations, family in re.findall(arm, read('crates/vx_attempt/src/family.rt')):
        found.setdefault(family, []).extend(re.findall(r'Operation::(\w+)', operations))
    return found


def row_functions():
    """The function of each operation's row."""
    found = dict(re.findall(r'(?m)^row_of h \(?(\w+)[^=]*= (\w+)', read('crates/vx_java/specs/Row.antt')))
    found['Throw'] = found.pop('ThrowOperation')
    return found


def names(text, operation, function):
    """Whether a file names an operation."""
    said = re.sub(r'(?ms)^(ghost |pub )?use .*?[};]\s*$', '', text)
    if re.search(r'\b%s\b' % operation, said):
        return True
    if function in SHARED:
        return re.search(r'(\bfn|^abbrev pub|^pub) %s\b' % function, said, flags=re.M) is not None
    return re.search(r'\b%s' % function, said) is not None


def file_of(path):
    """The path of a file from the top, or None where there is none."""
    return next(('crates/' + path + ending for ending in ('', '.antt') if os.path.isfile(os.path.join(TOP, 'crates', path + ending))), None)


def files_of(named, folder):
    """The paths that a field names."""
    for name in named:
        folder = os.path.dirname(name) or folder
        yield file_of('%s/%s' % (folder, os.path.basename(name)))


def trial_faults(family, folders):
    if not folders:
        yield '%s: no trials' % family
    for folder in folders:
        sources = glob.glob(os.path.join(TOP, 'tests', folder, '**', '*.jasm'), recursive=True)
        if not any(re.search(r'(?m)^(%s)\b' % INSTRUCTIONS[family], read(source)) for source in sources):
            yield '%s: no instruction of it in tests/%s' % (family, folder)


def field_faults(family, operations, functions, named, folder):
    paths = list(files_of(named, folder))
    for name, path in zip(named, paths):
        if path is None:
            yield '%s: no file %s' % (family, name)
        elif not any(names(read(path), operation, functions[operation]) for operation in operations):
            yield '%s: %s names no operation of it' % (family, name)
    for operation in operations:
        if not any(path and names(read(path), operation, functions[operation]) for path in paths):
            yield '%s: no %s in %s' % (family, operation, ', '.join(named) or 'an empty field')


def cells_of(line):
    return [cell.strip() for cell in line.strip().strip('|').split('|')]


def table(text, first):
    """The head of the table whose first column has this title, and its rows."""
    found = re.search(r'(?m)^\| %s \|.*\n(?:\|.*\n)+' % first, text)
    if not found:
        return [], []
    head, _, *rows = [cells_of(line) for line in found[0].splitlines()]
    return head, rows


def grid_faults(text, operations_of, functions):
    head, lines = table(text, 'Family')
    rows = {''.join(quoted(row[0])): row for row in lines}
    if list(rows) != list(operations_of):
        yield 'the grid has %s, and the families are %s' % (', '.join(rows), ', '.join(operations_of))
    for family, row in rows.items():
        if len(row) != len(head):
            yield '%s: %d fields of %d' % (family, len(row), len(head))
            continue
        for title, cell in list(zip(head, row))[1:]:
            named = quoted(cell)
            if title.startswith('Trials'):
                yield from trial_faults(family, named)
            else:
                folder = re.search(r'\(`([^`]+)`\)', title)
                yield from field_faults(family, operations_of.get(family, []), functions, named, folder and folder[1])


def row_faults(text):
    """Crates that have no file which imports the rows that are said to be named there."""
    _, lines = table(text, 'Rows')
    if not lines:
        yield 'no table of rows'
    for files, crates, *_ in lines:
        imports = r'Rattle\.vx_java\.specs\.(%s)\b' % '|'.join(quoted(files))
        for crate in quoted(crates):
            paths = [path for inner in ('specs', 'src', 'proofs') for path in glob.glob(os.path.join(TOP, 'crates', crate, inner, '**', '*.*t*'), recursive=True)]
            if not any(re.search(imports, read(path)) for path in paths if os.path.isfile(path)):
                yield '%s imports none of %s' % (crate, files)


def list_faults(text, functions):
    named = quoted(text.partition(EVERY)[2].partition('\n\n')[0])
    if not named:
        yield 'no list behind "%s"' % EVERY
    for name in named:
        path = file_of(name)
        lacking = [operation for operation in functions if not path or not re.search(r'\b%s\b' % operation, read(path))]
        if lacking:
            yield '%s does not name %s' % (name, ', '.join(lacking))


def main():
    text, operations_of, functions = read(DOCUMENT), families(), row_functions()
    faults = [*grid_faults(text, operations_of, functions), *row_faults(text), *list_faults(text, functions)]
    for fault in faults:
        print('%s: %s' % (DOCUMENT, fault))
    print('%d families, %d operations, %d faults' % (len(operations_of), len(functions), len(faults)))
    return 1 if faults else 0


if __name__ == '__main__':
    sys.exit(main())
