#!/usr/bin/env python3
"""Makes the constants of this crate out of the files of the page.

    python3 make.py            writes src/front.rt, src/back.rt, specs/Front.antt and specs/Back.antt
    python3 make.py --check    says which of them are not what it would write
    python3 make.py --page REPORT    writes the page of a report on the standard output

The front of a page is front.html. Its back is back.html with script.js in place of the line {script.js}. Between them stands the report, with & and < as
entities. Each is cut into parts of twenty lines."""
import os
import sys

HERE = os.path.dirname(os.path.abspath(__file__))
CRATE = os.path.dirname(HERE)
PART = 20
NAMES = 8
TITLES = {'front': 'The front of a page: all that stands before the report.', 'back': 'The back of a page: the end of the report, and the script.'}


def read(name):
    with open(os.path.join(HERE, name), encoding='ascii', newline='') as file:
        return file.read()


def front():
    return read('front.html')


def back():
    return read('back.html').replace('{script.js}\n', read('script.js'))


def page(report):
    """The page of a report's text."""
    return front() + report.replace('&', '&amp;').replace('<', '&lt;') + back()


def cut(items, size):
    return [items[i:i + size] for i in range(0, len(items), size)]


def quoted(line):
    return 'codes "%s"' % line.replace('\\', '\\\\').replace('"', '\\"').replace('\n', '\\n')


def numbered(parts):
    return ['part_%d' % i for i, _ in enumerate(parts, 1)]


def specs(name, parts):
    lines = ['-- ' + TITLES[name], 'use Rattle.std.specs.Prelude.{\u2115, List, \u25cc\u2237\u25cc, \u25cc++\u25cc, [], codes}', 'use Rattle.vx_page.specs.Parts.{joined}', '']
    for part, text in zip(numbered(parts), parts):
        lines += ['unfoldable pub %s : List \u2115' % part, part + ' =']
        lines += ['    ' + ('++ ' if j else '') + quoted(line) for j, line in enumerate(text)] + ['']
    whole = '\n    \u2237 '.join(' \u2237 '.join(names) for names in cut(numbered(parts), NAMES))
    return '\n'.join(lines + ['abbrev pub %s : List \u2115' % name, '%s =' % name, '    joined (%s \u2237 [])' % whole, ''])


def unfolding(name, definition):
    return '#[tactic(auto, unfolding(crate::specs::%s::%s))]' % (name.capitalize(), definition)


def code(name, parts):
    names = numbered(parts)
    lines = ['//! ' + TITLES[name] + ' It is made by page/make.py.', '', 'ghost use Rattle.std.specs.Prelude.{\u25cc\u2261\u25cc, \u25cc++\u25cc, OnErr, OnOk};']
    lines += ['ghost use Rattle.vx_page.specs.%s.{%s};' % (name.capitalize(), ', '.join(names + [name])), '', 'use crate::parts::put_parts;', 'use std::alloc::AllocError;', '']
    for part, text in zip(names, parts):
        lines += [unfolding(name, part), "fn %s() -> &'static [u8]" % part, '    ensures { result.now \u2261 %s }' % part, '{', '    br##"' + ''.join(text) + '"##', '}', '']
    lines += ['/// Puts the whole. Want of memory leaves the text as it was.', 'pub fn put_%s(out: &mut Vec<u8>) -> Result<(), AllocError>' % name]
    lines += ['    ensures ok { OnOk result (out.new.items \u2261 out.old.items ++ %s) }' % name, '    ensures err { OnErr result (out.new.items \u2261 out.old.items) }', '{']
    return '\n'.join(lines + ['    let parts = ['] + ['        %s(),' % part for part in names] + ['    ];', '    put_parts(out, &parts)', '}', ''])


def files():
    """What each made file has."""
    made = {}
    for name, text in (('front', front()), ('back', back())):
        assert text.endswith('\n') and '"##' not in text and '\r' not in text and '\t' not in text
        parts = cut(text.splitlines(keepends=True), PART)
        made['specs/%s.antt' % name.capitalize()] = specs(name, parts)
        made['src/%s.rt' % name] = code(name, parts)
    return made


def main(words):
    if words[:1] == ['--page']:
        with open(words[1], encoding='ascii', newline='') as file:
            sys.stdout.write(page(file.read()))
        return 0
    faults = 0
    for name, text in files().items():
        path = os.path.join(CRATE, name)
        if words == ['--check']:
            same = os.path.exists(path) and open(path, encoding='utf-8').read() == text
            faults += not same
            print('%s is %s' % (name, 'as made' if same else 'NOT what page/make.py makes'))
        else:
            os.makedirs(os.path.dirname(path), exist_ok=True)
            with open(path, 'w', encoding='utf-8') as file:
                file.write(text)
    return 1 if faults else 0


if __name__ == '__main__':
    sys.exit(main(sys.argv[1:]))
