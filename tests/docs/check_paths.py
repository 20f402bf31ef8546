"""Checks that the documents name what is there.

    python3 check_paths.py

In README.md, CONTRIBUTING.md and docs/*.md each of these has to be there:

- the file of a relative link;
- a path: what begins with a crate, with a folder at the top, or with `specs/`, `src/`, `proofs/` or `must-fail/` (of some crate).
  The ending .rt or .antt may be left out, and a star stands for any letters;
- a word in backquotes: in the crates, in crates.txt, in a script, or in a Java source of the tests, the library or `prepare`;
- words in backquotes behind a crate and a colon: in that crate;
- words in backquotes in the last column of a table that has crates in its first column: in one of those crates; so are those behind the
  word Clause of an entry that begins with crates in bold, and the calls of the table of public calls;
- the words behind a .rt file in a block of code: as functions or types of that file.

Each layer of crates.txt is named in docs/ARCHITECTURE.md, where they are drawn, and each crate in it; and each but the last layer is a heading of docs/PROVED.md.

What isn't there is printed, and the status is then 1.
"""

import glob
import os
import re
import sys

TOP = os.path.dirname(os.path.dirname(os.path.dirname(os.path.abspath(__file__))))
INNER = ('specs', 'src', 'proofs', 'must-fail')
# Words of other programs, a name of the format of models, and forms of names that proofs have.
ELSEWHERE = {'javac', 'javap', 'vI', 'X-of', 'X-kept', 'X-extends', 'done-inside', 'returns-clause-LABEL'}


def read(path):
    with open(os.path.join(TOP, path), encoding='utf-8', errors='replace') as file:
        return file.read()


def files_at(*patterns):
    found = [path for pattern in patterns
             for path in glob.glob(pattern, root_dir=TOP, recursive=True)]
    # What was built is no source.
    return [path for path in found if os.path.isfile(os.path.join(TOP, path)) and 'out' not in path.split('/')]


def words_in(paths):
    """The words of these files, and their parts between hyphens."""
    found = set()
    for path in paths:
        for word in re.findall(r'[\w-]+', read(path)):
            found.add(word)
            found.update(word.split('-'))
    return found


def all_crates():
    names = [line.split(':')[0].split() for line in read('crates.txt').split('\n')]
    return {name[0] for name in names if name and not name[0].startswith('#')}


def crate_files(crate):
    return files_at(*('crates/%s/%s/**/*' % (crate, inner) for inner in INNER))


class Sources:
    """What may be named."""

    def __init__(self):
        self.crates = all_crates()
        self.words = {crate: words_in(crate_files(crate)) for crate in self.crates}
        scripts = files_at('crates.txt', '.ci/run', 'examples/**/*', 'tests/**/*.py', 'tests/**/src/*.java', 'library/**/*.java', 'prepare/**/*.java', 'prepare/**/*.py', 'prepare/*')
        self.all_words = words_in(scripts).union(*self.words.values()) | ELSEWHERE
        self.top = {name for name in os.listdir(TOP) if os.path.isdir(os.path.join(TOP, name))}

    def is_path(self, text):
        """Whether a text has the form of a path of the repository."""
        head = text.split('/')[0]
        is_head = head.startswith('vx_') or head in self.crates.union(self.top, INNER)
        return '/' in text and is_head and ' ' not in text

    def is_there(self, path):
        head = path.split('/')[0]
        if head.startswith('vx_') or head in self.crates:
            path = 'crates/' + path
        elif head in INNER:
            path = 'crates/*/' + path
        return any(glob.glob(os.path.join(TOP, path.rstrip('/') + ending))
                   for ending in ('', '.rt', '.antt'))


def quoted(text):
    return re.findall(r'`([^`\n]+)`', text)


def blocks_of(text):
    """(the text without its blocks of code, the lines of those)."""
    fenced = re.findall(r'(?ms)^```[^\n]*\n(.*?)^```', text)
    rest = re.sub(r'(?ms)^```.*?^```\n', '', text)
    indented = re.findall(r'(?m)^    (?! *[-*|]).*$', rest)
    lines = [line for block in fenced for line in block.split('\n')] + indented
    return rest, lines


def link_faults(text, folder):
    for target in re.findall(r'\]\(([^)\s]+)\)', text):
        target = target.split('#')[0]
        if target and '://' not in target and not os.path.exists(os.path.join(TOP, folder, target)):
            yield 'no file of the link %s' % target


def span_faults(text, sources):
    for span in quoted(text):
        if sources.is_path(span):
            if not sources.is_there(span):
                yield 'no path %s' % span
        elif re.fullmatch(r'vx_\w+', span):
            if span not in sources.crates:
                yield 'no crate %s' % span
        elif re.fullmatch(r'[A-Za-z_][\w-]*', span) and span not in sources.all_words:
            yield 'no word %s' % span


def lacking(spans, crates, sources):
    for word in sorted({word for span in spans for word in re.findall(r'[A-Za-z_]\w+', span)}):
        if not any(word in sources.words[crate] for crate in crates):
            yield 'no word %s in %s' % (word, ', '.join(crates))


def crate_faults(text, sources):
    """Words behind a crate and a colon, in the last column of a table of crates, and in entries and tables that lead to crates."""
    for crate, rest in re.findall(r'`(vx_\w+)`: ((?:`[^`\n]+`(?:, | and |; )?)+)', text):
        if crate in sources.crates:
            yield from lacking(quoted(rest), [crate], sources)
    crates = []
    for row in re.findall(r'(?m)^\|(.*)\|$', text):
        cells = re.split(r'(?<!\\)\|', row)
        named = [span for span in quoted(cells[0]) if span in sources.crates]
        # A row without a crate goes on with that of the row above.
        crates = named or (crates if not cells[0].strip() else [])
        if crates:
            yield from lacking(quoted(cells[-1]), crates, sources)
    for head, entry in re.findall(r'(?ms)^- \*\*(`.*?)\*\*:(.*?)(?=^- |^$|\Z)', text):
        named = [span for span in quoted(head) if span in sources.crates]
        for clause in re.findall(r'(?ms)\*Clause:\*(.*?)(?=^ *- |\Z)', entry):
            yield from lacking(quoted(' '.join(clause.split())), named, sources)
    for table in re.findall(r'(?m)^\| Calls \| Crate \|\n((?:\|.*\n)+)', text):
        for calls, where in re.findall(r'(?m)^\|(.*)\|(.*)\|$', table):
            named = [span for span in quoted(where) if span in sources.crates]
            if named:
                yield from lacking(quoted(calls), named, sources)


def block_faults(lines, sources):
    for line in lines:
        spans = line.split()
        for at, span in enumerate(spans):
            path = span.strip('(),;:')
            if not sources.is_path(path):
                continue
            if not sources.is_there(path):
                yield 'no path %s' % path
            elif path.endswith('.rt') and path.split('/')[0] in sources.crates:
                code = read('crates/' + path)
                for name in (word.strip(',') for word in spans[at + 1:]):
                    if not re.search(r'\b(fn|struct|enum|trait) %s\b' % re.escape(name), code):
                        yield 'no %s in %s' % (name, path)


def faults_of(document, sources):
    text = read(document)
    rest, lines = blocks_of(text)
    yield from link_faults(rest, os.path.dirname(document))
    yield from span_faults(rest, sources)
    yield from crate_faults(rest, sources)
    yield from block_faults(lines, sources)


def layer_faults(sources):
    """(document, what it lacks of crates.txt)"""
    _, *layers = re.findall(r'(?m)^# ([^:\n]*)', read('crates.txt'))
    drawn, proved = read('docs/ARCHITECTURE.md'), read('docs/PROVED.md')
    for layer in layers:
        if not re.search(r'\b%s\b' % layer, drawn):
            yield 'docs/ARCHITECTURE.md', 'no layer %s' % layer
        if layer != layers[-1] and '\n## %s\n' % layer not in proved:
            yield 'docs/PROVED.md', 'no heading %s' % layer
    for crate in sorted(sources.crates):
        if '`%s`' % crate not in drawn:
            yield 'docs/ARCHITECTURE.md', 'no crate %s' % crate


def main():
    sources = Sources()
    documents = files_at('README.md', 'CONTRIBUTING.md', 'docs/*.md')
    faults = [(document, fault) for document in sorted(documents) for fault in dict.fromkeys(faults_of(document, sources))]
    faults += layer_faults(sources)
    for fault in faults:
        print('%s: %s' % fault)
    print('%d documents, %d faults' % (len(documents), len(faults)))
    return 1 if faults else 0


if __name__ == '__main__':
    sys.exit(main())
