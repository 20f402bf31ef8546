"""Checks that a call which is lent something says what want of memory leaves of it.

    python3 check_refusals.py [TOP]

Of each `pub fn` in the code of the crates under TOP (here where none is given) that is lent something by `&mut`, and answers with an
`AllocError` itself or by the name of a type that stands for one, a clause has to say what holds after `Err`: `ensures err`, or one that
speaks of `OnErr` or `IfErr`. Where what is lent is given up, the error is `GivenUp` or `SpaceFault`, whose texts say so. Crates of
trials and of measures are not looked at. A function without such a clause is printed, and the status is then 1.
"""

import glob
import os
import re
import sys

from check_memory_words import HERE, closing, without_texts

FUNCTION = re.compile(r'\bpub\s+(?:const\s+)?fn\s+(\w+)')
CLAUSE = re.compile(r'\s*(requires|ensures)\b\*?\s*(\w*)\s*(?=\{)')
SAYS = re.compile(r'\bOnErr\b|\bIfErr\b')


def functions(text):
    """(place, name, parameters, result, [(name, text) of what it ensures]) of each public function."""
    for match in FUNCTION.finditer(text):
        opening = match.end()
        depth = 0
        while text[opening] != '(' or depth:
            depth += (text[opening] == '<') - (text[opening] == '>' and text[opening - 1] != '-')
            opening += 1
        end = closing(text, opening)
        result = re.compile(r'[^{;]*?(?=\s*\b(?:requires|ensures)\b|\s*[{;])').match(text, end)
        clauses = []
        at = result.end()
        while clause := CLAUSE.match(text, at):
            at = closing(text, clause.end())
            if clause[1] == 'ensures':
                clauses.append((clause[2], text[clause.end():at]))
        yield match.start(), match[1], text[opening:end], result[0], clauses


def says_nothing(wants, parameters, result, clauses):
    """Whether a function is lent something, may want memory, and doesn't say what is left then."""
    if not re.search(r"&\s*(?:'\w+\s+)?mut\b", parameters) or not re.search(wants, result):
        return False
    return not any(name == 'err' or SAYS.search(text) for name, text in clauses)


def main():
    top = os.path.abspath(sys.argv[1]) if len(sys.argv) > 1 else HERE
    texts = {}
    for path in sorted(glob.glob('*/src/**/*.rt', root_dir=os.path.join(top, 'crates'), recursive=True)):
        if not path.split('/')[0].endswith(('_trials', '_bench')):
            with open(os.path.join(top, 'crates', path), encoding='utf-8') as file:
                texts[path] = without_texts(file.read())
    names = [name for text in texts.values() for name in re.findall(r'\btype\s+(\w+)[^=;]*=[^;]*\bAllocError\b', text)]
    wants = r'\b(?:%s)\b' % '|'.join(['AllocError', *names])
    seen = 0
    faults = []
    for path, text in texts.items():
        for place, name, parameters, result, clauses in functions(text):
            seen += 1
            if says_nothing(wants, parameters, result, clauses):
                faults.append('%s:%d: %s does not say what want of memory leaves' % (path, text.count('\n', 0, place) + 1, name))
    for fault in faults:
        print(fault)
    print('%d public functions, %d faults' % (seen, len(faults)))
    return 1 if faults or not seen else 0


if __name__ == '__main__':
    sys.exit(main())
