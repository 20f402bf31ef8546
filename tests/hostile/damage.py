"""Damages the files of worked cases byte by byte.

    python3 tests/hostile/damage.py VAREXJ

Each file is cut at each place, and each of its bytes is changed, left out and written twice. The program has to end with a status that its
command may have, with the line of that status, and with an output only where it is done.
"""

import os
import re
import shutil
import sys
import tempfile
from concurrent.futures import ThreadPoolExecutor

import trying

SECONDS = 30
# The line of each status on the standard error.
LINES = {
    0: rb'', 5: rb'bad model line \d+ reason [1-9]\n', 6: rb'no configuration\n', 7: rb'bad class [^ \n]+ at \d+ reason \d+\n',
    8: rb'(twice|no super|final super|cycle|no option) [^ \n]+\n|no main\n', 10: rb'bad report line \d+\n', 11: rb'not allowed\n',
    12: rb'bad source line \d+ reason [1-8]\n', 14: rb'unlike\n', 15: rb'failing\n', 16: rb'differing\n', 17: rb'bad expected line \d+ reason [1245]\n',
    18: rb'not joinable\n'}
# The statuses of a call that is done, with an output.
DONE = (0, 15, 16)
STATUSES = {'run': (0, 5, 6, 7, 8), 'verify': (0, 5, 7, 8), 'asm': (0, 12), 'agree': (0, 10, 14), 'join': (0, 10, 14, 18),
            'check': (0, 10, 15, 17), 'compare': (0, 10, 14, 16), 'cut': (0, 5, 6, 10, 11, 14),
            **dict.fromkeys(('replay', 'trace'), (0, 5, 7, 8, 11)), **dict.fromkeys(('project', 'output', 'picture'), (0, 10, 11)),
            **dict.fromkeys(('interact', 'cover', 'explain', 'count', 'list', 'page'), (0, 10))}
# A case, and the file that is damaged.
FILES = [('print-an-option', 'f/Main.class'), ('branches-join-with-different-values', 'f/Main.class'), ('dimacs-model', 'm.cnf'),
         ('model-with-true-rule', 'model'), ('project-option-on', 'report'), ('interact-two-options', 'report'),
         ('agree-in-one-branch', 'other'), ('assemble-class-with-option', 'source.jasm'), ('verify-branches', 'f/Main.class'),
         ('replay-with-lines', 'f/Main.class'), ('replay-uncaught', 'model'), ('picture-one-option', 'report'), ('cover-one-option', 'report'), ('explain-one-option', 'report'),
         ('trace-cause', 'f/Ticket.class'), ('join-two-parts', 'on'), ('join-three-with-attempts', 'b'), ('cut-by-names', 'model'), ('cut-clauses', 'model.cnf'),
         ('cut-by-number-with-a-report', 'report'), ('count-two-options', 'report'), ('list-two-options', 'report'), ('output-named', 'report'),
         ('picture-ends', 'report'), ('picture-of-a-piece', 'report'), ('check-other-than-expected', 'report'), ('check-other-than-expected', 'expected'),
         ('compare-another-line', 'one'), ('compare-with-a-part', 'other')]


def damaged(data):
    """What becomes of the bytes of a file: the changed bytes, each with what was done."""
    for at in range(len(data)):
        front, byte, rest = data[:at], data[at], data[at + 1:]
        yield f'cut at {at}', front
        yield f'without byte {at}', front + rest
        yield f'with byte {at} twice', front + data[at:at + 1] + data[at:]
        for other in {0x00, 0xFF, byte ^ 0x01, byte ^ 0x80, (byte + 1) % 256, 0x0A, 0x20} - {byte}:
            yield f'with {other} as byte {at}', front + bytes([other]) + rest


def problem(varexj, words, place, file, data, number):
    """What is wrong with how a command ends over one damaged file, or None."""
    path = os.path.join(place, f'damaged-{number}')
    if file.startswith('f/'):
        shutil.copytree(os.path.join(place, 'f'), path)
        trying.write(os.path.join(place, path, os.path.basename(file)), data)
        words = [words[0], path, *words[2:]]
    else:
        path += os.path.splitext(file)[1]
        trying.write(path, data)
        words = [path if word == file else word for word in words]
    ended = trying.called([varexj, *words], place, SECONDS)
    line = LINES.get(ended.status) if ended.status in STATUSES[words[0]] else None
    if line is None or not re.fullmatch(line, ended.err) or bool(ended.out) != (ended.status in DONE):
        return ended.told()
    return None


def main(varexj):
    tally = trying.Tally()
    for name, file in FILES:
        words = trying.case_words(name)
        with tempfile.TemporaryDirectory() as top, ThreadPoolExecutor(os.cpu_count()) as pool:
            place = trying.case_folder(name, top)
            with open(os.path.join(place, file), 'rb') as whole:
                tries = list(damaged(whole.read()))
            answers = pool.map(lambda one: problem(varexj, words, place, file, one[1][1], one[0]), enumerate(tries))
            for (what, _data), answer in zip(tries, answers):
                tally.judge(f'{name}, {file} {what}', answer)
        print(f'{name}: {len(tries)} damaged files', flush=True)
    return tally.status()


if __name__ == '__main__':
    sys.exit(main(trying.program()))
