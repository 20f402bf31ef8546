"""Prepares the programs of tests/real and of examples/shop, and compares them with a Java machine.

    python3 check_real.py make [NAME..]           writes classes, model, main and expected anew
    python3 check_real.py prepare [NAME..]        writes classes, model and main anew, and keeps what was expected
    python3 check_real.py check VAREXJ [NAME..]   compares all of it, and runs what was prepared
    python3 check_real.py jars VAREXJ [NAME..]    the same of the programs in `jars`, over jars that nobody here wrote, as far as they stand on this computer

A program is a folder with `src`; `words`, the words for `prepare`, a line each; where it has rules, `rules`, the model that is given to it; where it is not
compiled for Java 17, `javac`, the words for javac; where an option is taken from a call, `ask`: how the original is asked instead; and `loose`: the facts `loose`
that have to be told, no others.

What is expected comes from the original classes on a Java machine, in each configuration. The prepared classes are run by varexj, and once more on the Java machine
with its own class library in place of the one here, and so with its verifier. Each end `unsupported` has to have been told before, and a program without
lacks has to be verified.
"""

import filecmp
import glob
import os
import re
import shutil
import subprocess
import sys
import tempfile

HERE = os.path.dirname(os.path.abspath(__file__))
TOP = os.path.dirname(os.path.dirname(HERE))
sys.path.insert(0, os.path.join(TOP, 'tests', 'programs'))

sys.path.insert(0, os.path.join(TOP, 'tests', 'real'))

import programs
import real

LIMIT = '10000000'
JAR_CONFIGURATIONS = 64
PREPARE = os.path.join(TOP, 'prepare', 'prepare')
JAVA = ['java', '-Xmx1g', '-XX:TieredStopAtLevel=1']


class Real:
    def __init__(self, folder):
        self.folder = folder
        self.name = os.path.basename(folder)

    def place(self, *parts):
        return os.path.join(self.folder, *parts)

    def text(self, name, otherwise=''):
        if not os.path.exists(self.place(name)):
            return otherwise
        with open(self.place(name), encoding='utf-8') as file:
            return file.read()

    def words(self):
        """Pairs of a word for `prepare` and what stands behind it."""
        return [line.split(' ', 1) for line in self.text('words').splitlines() if line]

    def sources(self):
        """The source of each option, as it is asked of the original."""
        found = dict(value.split('=', 1) for word, value in self.words() if word == '--option')
        found.update(line.split(' ', 1) for line in self.text('ask').splitlines())
        return found

    def jars(self):
        return self.text('jars').split()

    def is_kept(self):
        """Whether its prepared classes stand beside it."""
        return os.path.exists(self.place('main'))

    def lacks(self):
        """Whether it is one that comes to what is lacking."""
        return self.name.startswith('doctor')

    def compiled(self, folder):
        files = sorted(glob.glob(self.place('src', '**', '*.java'), recursive=True))
        words = self.text('javac', '--release 17').split()
        subprocess.run(['javac', '-g:lines', '-nowarn', '-Xlint:-options', *words, '-cp', ':'.join(self.jars() + ['.']), '-d', folder, *files], check=True, stderr=subprocess.DEVNULL)
        return 'preview' in ' '.join(words)

    def model(self, path):
        with open(path) as file:
            return programs.text_model(file.read())


def real_programs(names):
    folders = sorted(glob.glob(os.path.join(TOP, 'tests', 'real', '*', 'words'))) + glob.glob(os.path.join(TOP, 'examples', '*', 'words'))
    found = [Real(os.path.dirname(path)) for path in folders]
    return [program for program in found if not names or program.name in names]


def jar_programs(names):
    found = [Real(os.path.dirname(path)) for path in sorted(glob.glob(os.path.join(HERE, 'jars', '*', 'words')))]
    return [program for program in found if not names or program.name in names]


def settings(program, configuration, sources, bound):
    """The lines for Original.java, and the environment, of a configuration."""
    lines, environment = [f'config {configuration}'], {}
    on = configuration.split(',')
    for word, value in program.words():
        if word == '--argument' and sources is not None:
            lines.append(f'argument {value}')
        elif word == '--set' and sources is not None:
            lines.append('property ' + value.replace('=', ' ', 1))
        elif word == '--option':
            option = value.split('=', 1)[0]
            if sources is None:
                lines.append(f'field {bound[option][0]} {bound[option][1]} {str(option in on).lower()}')
                continue
            kind, what = sources[option].split(':', 1)
            if kind == 'field':
                lines.append(f'field {what.rsplit(".", 1)[0]} {what.rsplit(".", 1)[1]} {str(option in on).lower()}')
            elif option in on and kind == 'argument':
                lines.append(f'argument {what}')
            elif option in on:
                key, _, text = what.partition('=')
                if kind == 'env':
                    environment[key] = text or 'true'
                else:
                    lines.append(f'property {key} {text or "true"}')
    return lines, environment


def asked(program, main, configurations, sources, bound, places, preview):
    """What the Java machine says of each configuration."""
    calls = {}
    for configuration in configurations:
        lines, environment = settings(program, configuration, sources, bound)
        calls.setdefault(tuple(sorted(environment.items())), []).append((configuration, lines))
    said = {}
    for environment, each in calls.items():
        with tempfile.NamedTemporaryFile('w', suffix='.settings') as file:
            file.write(''.join(line + '\n' for _, lines in each for line in lines))
            file.flush()
            words = JAVA + (['--enable-preview', '--source', '17'] if preview else []) + [os.path.join(HERE, 'Original.java'), main, file.name, *places]
            done = subprocess.run(words, capture_output=True, text=True, env={**os.environ, **dict(environment)})
        # A method of the machine's own, which names the class of a throwable, isn't there.
        if 'className0' in done.stderr:
            return None
        blocks = re.split(r'^config (.*)\n', done.stdout, flags=re.M)[1:]
        said.update(zip(blocks[0::2], blocks[1::2]))
        said.update({configuration: done.stderr for configuration, _ in each if configuration not in said})
    return ''.join(f'config {configuration}\n{said[configuration]}' for configuration in configurations)


def prepare(*words):
    return subprocess.run([PREPARE, *words], capture_output=True, text=True)


def prepared(program, original, out, model):
    words = [word for pair in program.words() for word in pair]
    words += ['--model', program.place('rules')] if program.text('rules') else []
    done = prepare('--out', out, '--model-out', model, *words, original, *program.jars())
    if done.returncode not in (0, 1) or not re.search('^done ', done.stdout, re.M):
        raise RuntimeError(f'{program.name}: prepare: {done.stderr}')
    return done.stdout


def main_of(facts):
    return next(line.split(' ', 1)[1] for line in facts.splitlines() if line.startswith('main '))


def compiled_original(program, room):
    """Compiles the original into the room; gives whether it has features that are only previewed."""
    original = os.path.join(room, 'original')
    os.makedirs(original)
    return program.compiled(original)


def built(program, room, asks=True):
    """Compiles, prepares and asks; makes in the room classes, model, main, facts and expected."""
    original, out = os.path.join(room, 'original'), os.path.join(room, 'classes')
    preview = compiled_original(program, room)
    facts = prepared(program, original, out, os.path.join(room, 'model'))
    main = main_of(facts)
    model = program.model(os.path.join(room, 'model'))
    every = list(model.configurations())
    configurations = every if not program.jars() else every[::max(1, len(every) // JAR_CONFIGURATIONS)]
    first = main.removesuffix('$Arguments')
    texts = {'main': main + '\n', 'facts': facts}
    if asks:
        texts['expected'] = asked(program, first, configurations, program.sources(), None, [original, *program.jars()], preview)
    for name, text in texts.items():
        with open(os.path.join(room, name), 'w') as file:
            file.write(text)
    return facts, model, configurations, preview


def make(program, asks):
    with tempfile.TemporaryDirectory() as room:
        facts, _, configurations, _ = built(program, room, asks)
        shutil.rmtree(program.place('classes'), ignore_errors=True)
        shutil.copytree(os.path.join(room, 'classes'), program.place('classes'))
        for name in ('model', 'main') + (('expected',) if asks else ()):
            shutil.copyfile(os.path.join(room, name), program.place(name))
    with open(program.place('sum'), 'w') as file:
        file.write(real.RealProgram(os.path.relpath(program.folder, TOP)).sum() + '\n')
    lacks = [line for line in facts.splitlines() if line.startswith('lacks')]
    print(f'{program.name}: {len(configurations)} configurations' + ''.join('\n  ' + line for line in lacks))


def same_folders(left, right):
    found = filecmp.dircmp(left, right)
    return not (found.left_only or found.right_only or found.diff_files) and all(
        same_folders(os.path.join(left, name), os.path.join(right, name)) for name in found.common_dirs)


def untold(facts, ends):
    """The ends `unsupported` that were not told as reached."""
    told = set()
    for line in facts.splitlines():
        words = line.split(' ')
        if words[0] in ('lacks', 'partly') and words[-1] == 'reached':
            told.add((words[2], words[3], words[4]))
    for end in ends:
        words = end.split(' ')
        if words[1] == 'unsupported' and (words[2], words[3], re.sub(r'\(.*', '', words[4])) not in told:
            yield end


def is_part(said, text):
    """Whether a run that ends unsupported has printed the beginning of what the Java machine printed."""
    *out, end = said.splitlines()
    return end.startswith('end unsupported ') and text.startswith('\n'.join(out))


def not_kept(program, room):
    """What of a program isn't as it is kept."""
    for name in ('model', 'main', 'expected') if program.is_kept() else ():
        if not filecmp.cmp(os.path.join(room, name), program.place(name), shallow=False):
            yield f'{name} is not what is kept'
    if program.is_kept() and not same_folders(os.path.join(room, 'classes'), program.place('classes')):
        yield 'classes are not what is kept'


def judged(varexj, program, room):
    """What is wrong with a program."""
    made = built(program, room)
    yield from not_kept(program, room)
    yield from misbehaved(varexj, program, room, *made)


def misbehaved(varexj, program, room, facts, model, configurations, preview):
    """What is wrong with what was prepared and told, over a room that `built` filled."""
    main, classes = main_of(facts), os.path.join(room, 'classes')
    wanted = program.text('loose', None)
    if wanted is not None and [line for line in facts.splitlines() if line.startswith('loose ')] != wanted.splitlines():
        yield 'other places are loose'
    done = subprocess.run([varexj, 'run', classes, os.path.join(room, 'model'), main, LIMIT, '1'], capture_output=True)
    if done.returncode != 0:
        yield f'status {done.returncode}: {done.stderr.decode()}'
        return
    report = os.path.join(room, 'report')
    with open(report, 'wb') as file:
        file.write(done.stdout)
    with open(os.path.join(room, 'expected')) as file:
        blocks = re.split(r'^config (.*)\n', file.read(), flags=re.M)[1:]
    for configuration, text in zip(blocks[0::2], blocks[1::2]):
        said = subprocess.run([varexj, 'project', report, configuration], capture_output=True, text=True).stdout
        if said != text and not (program.lacks() and is_part(said, text)):
            yield f'differs at {configuration}:\n    varexj {said!r}\n    java   {text!r}'
            break
    ends = [line.split(' ', 2) for line in done.stdout.decode().splitlines() if line.startswith('end ')]
    for end in untold(facts, [f'end {words[2]}' for words in ends]):
        yield f'not told before: {end}'
    verdict = subprocess.run([varexj, 'verify', classes, os.path.join(room, 'model'), main], capture_output=True, text=True).stdout
    if verdict != 'verified\n' and 'lacks ' not in facts and not program.jars():
        yield verdict.strip()
    if not program.lacks():
        yield from on_the_java_machine(program, room, main, model, configurations, preview)


def on_the_java_machine(program, room, main, model, configurations, preview):
    """The prepared classes with the machine's own class library."""
    place = os.path.join(room, 'there')
    shutil.copytree(os.path.join(room, 'classes'), place, ignore=lambda folder, names: ['java'] if folder == os.path.join(room, 'classes') else [])
    bound = {option[0]: option[1:] for option in model.options if len(option) == 3}
    said = asked(program, main, configurations, None, bound, [place], preview)
    with open(os.path.join(room, 'expected')) as file:
        expected = file.read()
    if said is not None and said != expected:
        lines = [(left, right) for left, right in zip(said.splitlines(), expected.splitlines()) if left != right]
        yield f'differs on the Java machine: {lines[0] if lines else said[-300:]}'


def main(words):
    if words[:1] in (['make'], ['prepare']):
        for program in real_programs(words[1:]):
            make(program, words[0] == 'make')
        return 0
    varexj, failed = os.path.abspath(words[1]), 0
    for program in (jar_programs if words[0] == 'jars' else real_programs)(words[2:]):
        if not all(os.path.exists(jar) for jar in program.jars()):
            print(f'{program.name}: {" ".join(program.jars())} not there')
            continue
        with tempfile.TemporaryDirectory() as room:
            wrong = list(judged(varexj, program, room))
        failed += 1 if wrong else 0
        print(f'{program.name}: {"; ".join(wrong) if wrong else "as on the Java machine"}', flush=True)
    return 1 if failed else 0


if __name__ == '__main__':
    sys.exit(main(sys.argv[1:]))
