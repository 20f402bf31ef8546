"""Verdicts of the built program: over the small classes beside this file, over all class files of the repository that javac made, and over the dearest methods.

    python3 check_verdicts.py VAREXJ

Each folder beside this file has the assembler sources of a program, and `expected` its verdict, as the rules of docs/FORMATS.md and docs/DECISIONS.md give it. What javac
made is verified, and with each program the core classes' own bodies. A method of 65,535 bytes takes less than ten seconds of a processor, also with as many local
variables.
"""

import glob
import os
import shutil
import sys
import tempfile

HERE = os.path.dirname(os.path.abspath(__file__))
ROOT = os.path.dirname(os.path.dirname(HERE))
sys.path.insert(0, os.path.join(ROOT, 'tests', 'programs'))

import programs
import common

MOST_SECONDS = 10
MAIN = 'class 0021 Main java/lang/Object\nmethod 0009 main ([Ljava/lang/String;)V 0 1\nreturn\nend\n'


def main_of(stack, variables, *lines):
    head = ['class 0021 Main java/lang/Object', f'method 0009 main ([Ljava/lang/String;)V {stack} {variables}']
    return '\n'.join([*head, *lines, 'end']) + '\n'


def store(local):
    return f'istore {local}' if local < 256 else f'wide istore {local}'


# Methods of 65,535 bytes or a little less, and their verdicts: nothing; a long way of jumps back; a local variable at every second instruction; the last local
# variable, which stays through all positions.
DEAR = {
    'nops': (main_of(0, 1, *['nop'] * 65534, 'return'), 'verified'),
    'jumps back': (main_of(0, 1, 'goto_w P0', *[line for k in range(21000) for line in (f'P{k + 1}:', 'return' if k == 0 else f'goto P{k}')], 'P0:', 'goto P21000'), 'verified'),
    'variables': (main_of(1, 65535, *[line for k in range(13000) for line in ('iconst_0', store(5 * k))], 'return'), 'verified'),
    'last variable': (main_of(1, 65535, 'iconst_0', store(65534), *['nop'] * 65000, 'return'), 'verified'),
}


class Judge:
    def __init__(self, varexj, folder):
        self.varexj, self.folder, self.passed, self.failed = varexj, folder, 0, 0
        self.model = common.written(os.path.join(folder, 'model'), '')

    def classes(self, name):
        path = os.path.join(self.folder, name.replace('/', '-'))
        os.makedirs(path)
        return path

    def judge(self, name, classes, expected, model=None, main='Main'):
        start = common.processor_seconds()
        done = common.called([self.varexj, 'verify', classes, model or self.model, main])
        seconds = common.processor_seconds() - start
        said = done.out.decode().rstrip('\n') if done.status == 0 else done.told()
        if said == expected and seconds < MOST_SECONDS:
            self.passed += 1
        else:
            self.failed += 1
            print(f'{name}: {said}, not {expected}, after {seconds:.1f} seconds')

    def small(self):
        with open(os.path.join(HERE, 'expected')) as file:
            for line in file:
                name, expected = line.rstrip('\n').split(': ', 1)
                classes = self.classes(name)
                for source in glob.glob(os.path.join(HERE, name, '*.jasm')):
                    common.assembled(self.varexj, source, os.path.join(classes, os.path.basename(source)[:-5] + '.class'))
                self.judge(name, classes, expected)

    def written(self, name, source):
        """A folder with the class of a source that is given as text."""
        classes = self.classes(name)
        path = common.written(os.path.join(self.folder, name.replace('/', '-') + '.jasm'), source)
        common.assembled(self.varexj, path, os.path.join(classes, 'Main.class'))
        return classes

    def made_by_javac(self):
        for program in programs.programs():
            self.judge(program.name, program.place('classes'), 'verified', program.model_place(), program.main())
        for loose in sorted(glob.glob(os.path.join(ROOT, 'crates', 'read_classes', 'data', '*'))):
            name = os.path.relpath(loose, ROOT)
            classes = self.written(name, MAIN)
            for path in glob.glob(os.path.join(loose, '*.class')):
                shutil.copy(path, classes)
            self.judge(name, classes, 'verified')

    def dear(self):
        for name, (source, expected) in DEAR.items():
            self.judge(name, self.written(name, source), expected)


def main(varexj):
    with tempfile.TemporaryDirectory() as folder:
        judge = Judge(varexj, folder)
        judge.small()
        judge.made_by_javac()
        judge.dear()
    print(f'verdicts: {judge.passed} passed, {judge.failed} failed')
    return 1 if judge.failed else 0


sys.exit(main(os.path.abspath(sys.argv[1])))
