"""Lets the program read the texts and class files of `texts.py`, and compares what it gives, or the line and the reason of its refusal.

    python3 check_texts.py VAREXJ

The last line is `texts: N passed, M failed`.
"""

import os
import sys
import tempfile

sys.path.insert(0, os.path.join(os.path.dirname(os.path.abspath(__file__)), '..'))

from common import called, written
from texts import ASSEMBLED, CLASSES, CLAUSES, LARGEST, LINES_OF_MODELS, LINES_OF_SOURCES, NEARLY_TOO_LARGE, REPORTS, SOURCES, TOO_LARGE

BAD_MODEL, BAD_CLASS, BAD_REPORT, BAD_SOURCE, LARGE = 5, 7, 10, 12, 13


class Reader:
    """The program, which reads one file in a folder with an empty model `none` and the folder `classes`."""

    def __init__(self, varexj, folder):
        self.varexj, self.folder = varexj, folder
        os.mkdir(os.path.join(folder, 'classes'))
        self.put('none', b'')

    def put(self, path, text):
        written(os.path.join(self.folder, path), text)

    def said(self, path, text, *words):
        """The status, the output and the line where a file has this text."""
        self.put(path, text)
        return called([self.varexj, *words], self.folder)[:3]

    def class_of(self, text):
        return self.said('source', text, 'asm', 'source')

    def modeled(self, text, path='model'):
        return self.said(path, text, 'run', 'classes', path, 'Main', '100', '1')

    def run(self, text):
        return self.said(os.path.join('classes', 'Main.class'), text, 'run', 'classes', 'none', 'Main', '100', '1')

    def projected(self, text):
        return self.said('report', text, 'project', 'report', '-')


def refusal(status, line):
    return status, b'', line.encode()


def sources(reader):
    for text, written in ASSEMBLED:
        yield text, reader.class_of(text) == (0, written, b'')
    for text, line, reason in [*SOURCES, *((text, 1, reason) for text, reason in LINES_OF_SOURCES)]:
        yield text, reader.class_of(text) == refusal(BAD_SOURCE, f'bad source line {line} reason {reason}\n')


def models(reader):
    for text, reason in LINES_OF_MODELS:
        said = reader.modeled(b'option A Main A\n' + text)
        yield text, said == refusal(BAD_MODEL, f'bad model line 2 reason {reason}\n') if reason else said[0] != BAD_MODEL
    for text, line, reason in CLAUSES:
        yield text, reader.modeled(text, 'model.cnf') == refusal(BAD_MODEL, f'bad model line {line} reason {reason}\n')
    yield TOO_LARGE, reader.modeled(TOO_LARGE) == refusal(LARGE, f'too large model {LARGEST}\n')
    yield NEARLY_TOO_LARGE, reader.said('model', NEARLY_TOO_LARGE, 'cut', 'model', 'A') == refusal(LARGE, f'too large model {LARGEST}\n')


def reports(reader):
    for text, line in REPORTS:
        yield text, reader.projected(text) == refusal(BAD_REPORT, f'bad report line {line}\n')


def classes(reader):
    for text, at, reason in CLASSES:
        yield text, reader.run(text) == refusal(BAD_CLASS, f'bad class Main.class at {at} reason {reason}\n')


def main(varexj):
    passed, failed = 0, 0
    with tempfile.TemporaryDirectory() as folder:
        reader = Reader(varexj, folder)
        for trial in (sources, models, reports, classes):
            for text, is_well in trial(reader):
                passed, failed = passed + is_well, failed + (not is_well)
                if not is_well:
                    print(f'{trial.__name__}: {text[:200]}')
    print(f'texts: {passed} passed, {failed} failed')
    return 1 if failed or not passed else 0


if __name__ == '__main__':
    sys.exit(main(os.path.abspath(sys.argv[1])))
