"""Checks that docs/FORMATS.md and the program say the same of each reason.

    python3 check_reasons.py

Each table of docs/FORMATS.md that begins with the columns "Reason" and "What fails" has the sentences of one form of
crates/vx_reasons/src/sentences.rt, by their numbers, but for backquotes. The table of ends as unsupported has those of the last
form, by their words. What differs is printed, and the status is then 1.
"""

import re
import sys

from check_paths import read

# The forms in the order of their tables.
FORMS = ('MODEL', 'DIMACS', 'CLASS_FILE', 'SOURCE', 'UNSUPPORTED')
# The words of ends as unsupported, by their numbers.
WORDS = ('float', 'subroutine', 'dynamic', 'constant', 'native', 'class', 'field', 'method')


def sentences():
    """Of each form its sentences by their reasons."""
    found = {}
    for name, rows in re.findall(r'const (\w+): \[&\[u8\]; \d+\] = \[\n(.*?)\];', read('crates/vx_reasons/src/sentences.rt'), re.S):
        texts = re.findall(r'b"(.*)",', rows)
        found[name] = {str(reason): text for reason, text in enumerate(texts) if text}
    return found


def rows_under(head):
    """Of each table with these two columns its rows: the first cell and the text of the second one."""
    for rows in re.findall(r'^\| %s \|.*\n\|[-|]+\n((?:\|.*\n)+)' % head, read('docs/FORMATS.md'), re.M):
        cells = [re.split(r'(?<!\\)\|', row)[1:3] for row in rows.split('\n') if row]
        yield [(first.strip(), said.strip().replace('`', '').replace('\\|', '|')) for first, said in cells]


def number_of(end):
    """The number of the word of an end as unsupported."""
    return str(WORDS.index(end.split()[1]) + 1)


def tables():
    """Of each table of reasons its sentences, and then of that of ends."""
    for rows in rows_under(r'Reason \| What fails'):
        yield dict(rows)
    for rows in rows_under(r'End \| What the run comes to'):
        yield {number_of(end): said for end, said in rows}


def main():
    said = sentences()
    told = list(tables())
    faults = []
    if len(told) != len(FORMS) or sorted(said) != sorted(FORMS):
        faults.append('%d tables of reasons, and the forms %s' % (len(told), ', '.join(sorted(said))))
    for form, table in zip(FORMS, told):
        for reason in sorted(set(table) | set(said[form]), key=int):
            if table.get(reason) != said[form].get(reason):
                faults.append('%s %s: "%s" in FORMATS, "%s" in the program' % (form, reason, table.get(reason), said[form].get(reason)))
    for fault in faults:
        print(fault)
    print('%d reasons, %d faults' % (sum(len(table) for table in told), len(faults)))
    sys.exit(1 if faults else 0)


if __name__ == '__main__':
    main()
