"""Checks that want of memory is passed on, and never made up.

    python3 check_memory_words.py [TOP]

In the code of the crates under TOP (here where none is given) `AllocError` and `::NoMemory` may stand as values only

- in an `impl From`, which says what want of memory is called above;
- in an arm whose pattern, or the test behind it, names it: such an arm hands on what a call answered. The pattern names it by
  `AllocError`, `AllocFailed`, `NoMemory` or `OutOfMemory`, so no other error comes to it;
- once in each of the functions listed below, with its reason: at most five. docs/LIMITS.md says what each of these bounds is.

A call with `?` needs no word. Types, imports, contracts, comments and texts are no values. Crates of trials and of measures, which run
by hand or as tests, are not looked at. What stands elsewhere is printed, and so is a line of the list that names nothing; the status is
then 1.
"""

import glob
import os
import re
import sys

HERE = os.path.dirname(os.path.dirname(os.path.dirname(os.path.abspath(__file__))))
STAYS = {
    ('vx_numbered/src/numbers.rt', 'next_number'): 'types, rows and stacks of verify have numbers of 32 bits',
    ('vx_value/src/texts.rt', 'within'): 'an int counts the units of a text',
    ('vx_plain/src/limits.rt', 'held'): 'the ordinary machine has numbers without a bound, the types of the plain machine do not',
    ('vx_verify/src/inference.rt', 'is_inferred'): 'sweeps over a method are counted by 64 bits',
    ('vx_effects/src/giving.rt', 'element_count'): 'an array has at most 1,048,576 elements',
}
MOST = 5
NAMED = r'\b(AllocError|AllocFailed|NoMemory|OutOfMemory)\b'
WORD = r'\bAllocError\b|::NoMemory\b'


def blanked(text, start, end):
    """The text with blanks from one place to another; lines stay."""
    return text[:start] + re.sub(r'[^\n]', ' ', text[start:end]) + text[end:]


def without_texts(text):
    """The code without comments, texts and letters."""
    pattern = r'//[^\n]*|b?r(#+)".*?"\1|b?"(?:[^"\\]|\\.)*"|b?\'(?:[^\'\\]|\\[^\n]{1,8}?)\''
    for match in re.finditer(pattern, text, re.S):
        text = blanked(text, *match.span())
    return text


def closing(text, at):
    """The place behind the bracket that closes the one at a place."""
    depth = 0
    for place in range(at, len(text)):
        if text[place] in '([{':
            depth += 1
        elif text[place] in ')]}':
            depth -= 1
            if depth == 0:
                return place + 1
    return len(text)


def without_clauses(text):
    """The code without contracts, ghost items and imports."""
    for match in re.finditer(r'\b(?:requires|ensures)\b\*?\s*\w*\s*\{|\bghost\s+\w+\s*[=:]\s*\{', text):
        text = blanked(text, match.start(), closing(text, match.end() - 1))
    for match in re.finditer(r'\bghost use [^;]*;|\buse [^;]*;', text):
        text = blanked(text, *match.span())
    return text


def conversions(text):
    """The spans of the `impl From` blocks."""
    for match in re.finditer(r'\bimpl\b[^{};]*\bFrom<[^{};]*\{', text):
        yield match.start(), closing(text, match.end() - 1)


def start_of_pattern(text, arrow):
    """Where the pattern before an arrow begins: behind the comma or the brace before it, or behind the arm before it."""
    depth = 0
    for place in range(arrow - 1, -1, -1):
        if text[place] in ')]':
            depth += 1
        elif text[place] == '}':
            if depth == 0 and re.match(r'\}\s*(?:[\w&(\[]|$)', text[place:arrow]) and '=>' not in text[place:arrow]:
                return place + 1
            depth += 1
        elif text[place] in '([{':
            if depth == 0:
                return place + 1
            depth -= 1
        elif text[place] == ',' and depth == 0:
            return place + 1
    return 0


def end_of_arm(text, at):
    """Where the arm ends that begins at a place."""
    depth = 0
    for place in range(at, len(text)):
        if text[place] in '([{':
            depth += 1
        elif text[place] in ')]}':
            if depth == 0:
                return place
            depth -= 1
            if depth == 0 and text[place] == '}' and re.match(r'\s*[\w&(\[]+[^;]*?=>', text[place + 1:place + 300], re.S):
                return place + 1
        elif text[place] == ',' and depth == 0:
            return place
    return len(text)


def passing(text):
    """The spans of the patterns that name want of memory, and of their arms."""
    for match in re.finditer(r'=>', text):
        start = start_of_pattern(text, match.start())
        pattern = text[start:match.start()]
        if re.search(NAMED, pattern):
            yield start, end_of_arm(text, match.end())
    for match in re.finditer(r'\blet\s([^=;{]*)=[^=]|\bmatches!\([^,]*,([^)]*\)*)', text):
        if re.search(NAMED, match.group(0)):
            yield match.span()


def is_type(text, start, end):
    """Whether a word is a type: the argument of one, that of a field or a parameter, or a result."""
    before = text[:start].rstrip()
    after = text[end:].lstrip()
    return re.search(r'\bstruct\s+\w+\($', before) is not None or (before.endswith((',', '<', '&')) and after.startswith('>')) or re.search(r'[^:]:$|->$', before) is not None


def function_at(text, place):
    names = re.findall(r'\bfn\s+(\w+)', text[:place])
    return names[-1] if names else ''


def made_up(path):
    """(line, function) of each value that is neither converted nor handed on."""
    with open(path, encoding='utf-8') as file:
        text = without_clauses(without_texts(file.read()))
    spans = [*conversions(text), *passing(text)]
    for match in re.finditer(WORD, text):
        start, end = match.span()
        if is_type(text, start, end) or any(first <= start < last for first, last in spans):
            continue
        yield text.count('\n', 0, start) + 1, function_at(text, start)


def main():
    top = os.path.abspath(sys.argv[1]) if len(sys.argv) > 1 else HERE
    faults = []
    found = set()
    files = sorted(glob.glob('*/src/**/*.rt', root_dir=os.path.join(top, 'crates'), recursive=True))
    for path in files:
        if path.split('/')[0].endswith(('_trials', '_bench')):
            continue
        for line, function in made_up(os.path.join(top, 'crates', path)):
            if (path, function) in STAYS and (path, function) not in found:
                found.add((path, function))
            else:
                faults.append('%s:%d: %s makes want of memory up' % (path, line, function))
    faults += ['%s: %s makes none up, and stands in the list' % place for place in STAYS if place not in found]
    if len(STAYS) > MOST:
        faults.append('the list has more than %d lines' % MOST)
    for fault in faults:
        print(fault)
    print('%d files, %d places where a table or a number ends, %d faults' % (len(files), len(found), len(faults)))
    return 1 if faults or not files else 0


if __name__ == '__main__':
    sys.exit(main())
