"""Does what docs/WALKTHROUGH.md says, and compares what comes of it with what stands there.

    python3 check_walkthrough.py VAREXJ [--javac]

Its blocks of code are taken in order, in a new folder:

- a block with a file's name behind its language, as in ```java Ticket.java, is written into that file;
- of a block of `console` each line that begins with a dollar is a command, and what stands below it up to the next command is what has to come,
  on both streams; a last line `..` stands for any further lines;
- other blocks are passed over.

`varexj` is the program that was given. With --javac the commands of javac are carried out; without it the class files come from tests/programs, of
the version whose source is the file as it stands. So the gate needs no javac. What differs is printed, and the status is then 1.
"""

import argparse
import difflib
import os
import re
import shlex
import shutil
import subprocess
import sys
import tempfile

TOP = os.path.dirname(os.path.dirname(os.path.dirname(os.path.abspath(__file__))))
DOCUMENT = os.path.join('docs', 'WALKTHROUGH.md')
PROGRAMS = [os.path.join(TOP, 'tests', 'programs', *parts) for parts in (['ticket'], ['ticket', 'mended'])]
BLOCK = re.compile(r'^```(\w+) ?([^\n]*)\n(.*?)^```$', re.M | re.S)


def commands_of(text):
    """Each command of a block with what has to come of it."""
    for part in re.split(r'^\$ ', text, flags=re.M)[1:]:
        command, _, output = part.partition('\n')
        yield command, output


def is_as(said, wanted):
    """Whether what came is as what is wanted, which may end with dots."""
    if wanted.endswith('\n..\n'):
        return said.startswith(wanted[:-3]) and said != wanted[:-3]
    return said == wanted


def committed(command, folder):
    """Puts the class files of a source where the command of javac would have put them."""
    words = shlex.split(command)
    with open(os.path.join(folder, words[-1])) as file:
        source = file.read()
    for program in PROGRAMS:
        with open(os.path.join(program, 'src', words[-1])) as file:
            if file.read() == source:
                shutil.copytree(os.path.join(program, 'classes'), os.path.join(folder, words[words.index('-d') + 1]))
                return ''
    return f'{words[-1]} is not the source of a program of tests/programs\n'


def called(command, folder, varexj):
    """What a command writes on both streams."""
    script = f'varexj() {{ {shlex.quote(varexj)} "$@"; }}\n{command}\n'
    done = subprocess.run(['bash', '-c', script], cwd=folder, stdout=subprocess.PIPE, stderr=subprocess.STDOUT, text=True)
    return done.stdout


def faults(text, folder, varexj, has_javac):
    """(how many commands were carried out, what differs)"""
    count, found = 0, []
    for language, name, body in BLOCK.findall(text):
        if name:
            with open(os.path.join(folder, name), 'w') as file:
                file.write(body)
        elif language == 'console':
            for command, wanted in commands_of(body):
                is_stood_for = command.startswith('javac ') and not has_javac
                said = committed(command, folder) if is_stood_for else called(command, folder, varexj)
                count += 1
                if not is_as(said, wanted):
                    found.append('$ ' + command)
                    found.extend(difflib.unified_diff(wanted.splitlines(), said.splitlines(), 'as written', 'as it came', lineterm=''))
    return count, found


def main(varexj, has_javac):
    with open(os.path.join(TOP, DOCUMENT)) as file:
        text = file.read()
    with tempfile.TemporaryDirectory() as folder:
        count, found = faults(text, folder, varexj, has_javac)
    print(*found, sep='\n', end='\n' if found else '')
    print(f'{DOCUMENT}: {count} commands, {"as written" if not found else "with differences"}')
    return 1 if found or not count else 0


if __name__ == '__main__':
    parser = argparse.ArgumentParser()
    parser.add_argument('varexj', type=os.path.abspath)
    parser.add_argument('--javac', action='store_true')
    words = parser.parse_args()
    sys.exit(main(words.varexj, words.javac))
