"""Takes each rule of `prepare` out, in a copy of its sources, and sees that the test of that rule fails then.

    python3 check_rules.py VAREXJ [WORD..]    tries all rules, or those in whose names one of the words stands

`rules.py` has the rules. A test fails where nothing is prepared, where a run says another thing than a Java machine, where an end wasn't told before, or where the classes aren't
verified; that the prepared classes aren't those that are kept doesn't count.
"""

import os
import subprocess
import sys
import tempfile

import check_forms
import check_real
from rules import RULES

SOURCES = os.path.join(check_real.TOP, 'prepare', 'src', 'varexj', 'prepare')
COMMAND = os.path.join(check_real.TOP, 'prepare', 'prepare')


class Workshop:
    """A Java machine that runs `prepare` with the classes of a folder before its own."""

    def __init__(self):
        subprocess.run([COMMAND], capture_output=True)
        jars = [os.path.join(check_forms.JARS, f'{name}.jar') for name in ('asm', 'asm-tree', 'asm-commons')]
        words = ['java', '-Xmx1g', '-XX:TieredStopAtLevel=1', '-cp', ':'.join(jars), os.path.join(check_real.HERE, 'Bench.java'),
                 os.path.join(check_real.TOP, 'prepare', 'out', 'classes'), check_real.TOP]
        self.machine = subprocess.Popen(words, stdin=subprocess.PIPE, stdout=subprocess.PIPE)
        self.folder = None

    def ask(self, *words):
        self.machine.stdin.write(('\t'.join(words) + '\n').encode())
        self.machine.stdin.flush()
        status, out, error = map(int, self.machine.stdout.readline().split())
        said, told = self.machine.stdout.read(out), self.machine.stdout.read(error)
        return subprocess.CompletedProcess(words, status, said.decode(), told.decode())

    def prepare(self, *words):
        return self.ask('prepare', self.folder, *words)

    def edit(self, folder, source, text, instead):
        """Compiles an edit of a source into a folder, whose classes count from now on."""
        with open(os.path.join(SOURCES, source + '.java')) as file:
            whole = file.read()
        if whole.count(text) != 1:
            raise RuntimeError(f'{source}.java has {text!r} {whole.count(text)} times')
        path = os.path.join(folder, source + '.java')
        with open(path, 'w') as file:
            file.write(whole.replace(text, instead))
        done = self.ask('compile', folder, path)
        if done.returncode != 0:
            raise RuntimeError(f'{source}.java is not compiled: {done.stderr}')
        self.folder = folder


class Tests:
    """The programs and forms, compiled and asked on the Java machine at first use."""

    def __init__(self, varexj, room):
        self.varexj, self.room = varexj, room
        self.programs, self.forms = {}, None

    def program(self, name):
        if name not in self.programs:
            place = os.path.join(self.room, name)
            os.mkdir(place)
            program = (check_real.jar_programs if name.startswith('doctor') else check_real.real_programs)([name])[0]
            self.programs[name] = (program, place, check_real.compiled_original(program, place))
        return self.programs[name]

    def fault(self, name):
        """What is first wrong with a test, or None."""
        with tempfile.TemporaryDirectory() as room:
            if name.startswith('forms:'):
                return self.fault_of_form(room, name.partition(':')[2])
            program, place, preview = self.program(name)
            try:
                facts = check_real.prepared(program, os.path.join(place, 'original'), os.path.join(room, 'classes'), os.path.join(room, 'model'))
            except RuntimeError as error:
                return str(error)
            model = program.model(os.path.join(room, 'model'))
            configurations = list(model.configurations())
            with open(os.path.join(room, 'expected'), 'w') as file:
                file.write(self.expected(program, place, facts, configurations, preview))
            return next(check_real.misbehaved(self.varexj, program, room, facts, model, configurations, preview), None)

    def expected(self, program, place, facts, configurations, preview):
        path = os.path.join(place, 'expected')
        if program.is_kept():
            return program.text('expected')
        if not os.path.exists(path):
            main = check_real.main_of(facts).removesuffix('$Arguments')
            with open(path, 'w') as file:
                file.write(check_real.asked(program, main, configurations, program.sources(), None, [os.path.join(place, 'original')], preview))
        with open(path) as file:
            return file.read()

    def fault_of_form(self, room, name):
        if not self.forms:
            self.forms = os.path.join(self.room, 'forms')
            os.mkdir(self.forms)
            check_forms.made(self.forms)
        return next(check_forms.faults(self.varexj, room, self.forms, name), None)


def main(varexj, words):
    unseen = tried = 0
    with tempfile.TemporaryDirectory() as shared:
        tests, workshop = Tests(varexj, shared), Workshop()
        check_real.prepare = check_forms.prepare = workshop.prepare
        for what, source, text, instead, test in RULES:
            if words and not any(word in what for word in words):
                continue
            with tempfile.TemporaryDirectory() as folder:
                workshop.edit(folder, source, text, instead)
                fault = tests.fault(test)
            tried += 1
            unseen += fault is None
            first = fault.strip().splitlines()[0][:150] if fault else 'NOTHING FAILS'
            print(f'{what} ({test}): {first}', flush=True)
        workshop.machine.stdin.close()
    print(f'{tried} rules, each taken out: the test of {tried - unseen} fails, of {unseen} not')
    return 1 if unseen else 0


if __name__ == '__main__':
    sys.exit(main(os.path.abspath(sys.argv[1]), sys.argv[2:]))
