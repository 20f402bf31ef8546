"""Prepares class files that javac of today doesn't make, jars, models, and small faults of a call.

    python3 check_forms.py VAREXJ
"""

import os
import shutil
import subprocess
import sys
import tempfile
import zipfile

HERE = os.path.dirname(os.path.abspath(__file__))
PREPARE = os.path.join(HERE, '..', 'prepare')
JARS = os.environ.get('ASM_JARS', '/usr/share/java')

OTHER = """public class Other {
    static final boolean FIXED = true;
    static boolean FREE;

    public static void main(String[] args) {
        System.out.println(FREE ? "free" : "other");
    }
}
"""

LATER = 'out later\\0a\nend return\n'

# By name: the words of prepare behind FOLDER, the status, the lines of its facts that are looked for, and the projection of the run. The text of `old` is what a Java machine
# prints, which still runs that class; the others can't be asked there. What the library is trimmed to is told by `done`.
FORMS = {
    'old': (['old'], 0, ['main Main', 'done 1 2 4'], 'out finally\\0abetween\\0afinally\\0a\nend return\n'),
    'constant': (['constant'], 1, ['lacks unsupported native Main.varexj$dynamic$1()Ljava/lang/String; Main.main - reached'],
                 'out before\\0a\nend unsupported native Main.varexj$dynamic$1()Ljava/lang/String; Main.main([Ljava/lang/String;)V@8\n'),
    'later': (['later'], 0, ['main Main', 'done 1 2 4'], LATER),
    'first': (['later', 'old'], 0, ['main Main'], LATER),
    'beside': (['later', 'other'], 0, ['main Main'], LATER),
    'own': (['own'], 0, ['left-out java/lang/Runnable the machine has its own'], LATER),
    'crowd': (['crowd'], 1, ['lacks room for 1031 classes, of which the machine takes 1024: see --trim'], None),
    'trimmed': (['--trim', 'crowd'], 0, ['done 1 2 3'], LATER),
    'jar': (['two.jar'], 0, ['main Main'], LATER),
}


def called(*words):
    return subprocess.run(words, capture_output=True, text=True)


def prepare(*words):
    return called(PREPARE, *words)


def made(forms):
    """Fills the folder of forms: class files, a folder with two of them, and a jar with these, a second version of one, and parts that are no classes of it."""
    path = os.path.join(JARS, 'asm.jar')
    subprocess.run(['java', '-Xmx1g', '-XX:TieredStopAtLevel=1', '-cp', path, os.path.join(HERE, 'Forms.java'), forms], check=True)
    source = os.path.join(forms, 'Other.java')
    with open(source, 'w') as file:
        file.write(OTHER)
    subprocess.run(['javac', '-nowarn', '-Xlint:-options', '--release', '8', '-d', os.path.join(forms, 'other'), source], check=True)
    shutil.copytree(os.path.join(forms, 'other'), os.path.join(forms, 'both'))
    shutil.copyfile(os.path.join(forms, 'later', 'Main.class'), os.path.join(forms, 'both', 'Main.class'))
    with zipfile.ZipFile(os.path.join(forms, 'two.jar'), 'w') as jar:
        jar.writestr('META-INF/MANIFEST.MF', 'Manifest-Version: 1.0\r\nMain-Class: Main\r\n\r\n')
        jar.write(os.path.join(forms, 'other', 'Other.class'), 'Other.class')
        jar.write(os.path.join(forms, 'later', 'Main.class'), 'Main.class')
        jar.writestr('META-INF/versions/9/Main.class', b'of a later version')
        jar.writestr('module-info.class', b'no class')


def form_faults(varexj, room, forms, only):
    for name, (words, status, lines, text) in FORMS.items():
        if only not in ('', name):
            continue
        out, model, report = (os.path.join(room, f'{name}.{part}') for part in ('out', 'model', 'report'))
        words = [word if word.startswith('--') else os.path.join(forms, word) for word in words]
        done = prepare('--out', out, '--model-out', model, *words)
        if done.returncode != status:
            yield f'{name}: status {done.returncode}: {done.stderr}'
        yield from (f'{name}: no line {line}' for line in lines if line not in done.stdout.splitlines())
        if text is None:
            continue
        with open(report, 'w') as file:
            file.write(called(varexj, 'run', out, model, 'Main', '1000', '1').stdout)
        said = called(varexj, 'project', report, '-').stdout
        if said != text:
            yield f'{name}: {said!r}'
        if name == 'old':
            yield from on_the_java_machine(out, name)


def on_the_java_machine(folder, name):
    """What was prepared runs there too, but for the classes of the library."""
    shutil.rmtree(os.path.join(folder, 'java'), ignore_errors=True)
    said = called('java', '-XX:TieredStopAtLevel=1', '-cp', folder, 'Main')
    if said.stdout != 'finally\nbetween\nfinally\n':
        yield f'{name} on the Java machine: {said.stdout!r} {said.stderr}'


def model_faults(room, forms):
    """A model of DIMACS is bound, and an option that the model lacks is refused."""
    rules, bound = os.path.join(room, 'rules.cnf'), os.path.join(room, 'bound.cnf')
    with open(rules, 'w') as file:
        file.write('c 1 FREE\np cnf 1 0\n')
    words = ['--check', '--model', rules, '--model-out', bound, '--option', 'FREE=field:Other.FREE']
    prepare(*words, os.path.join(forms, 'other'))
    text = open(bound).read() if os.path.exists(bound) else None
    if text != 'c 1 FREE Other FREE\np cnf 1 0\n':
        yield f'a model of DIMACS: {text!r}'
    done = prepare(*words, '--option', 'MORE=property:more', os.path.join(forms, 'other'))
    if done.returncode != 2:
        yield f'an option that the model lacks: status {done.returncode}'


def call_faults(room, forms):
    later, other = os.path.join(forms, 'later'), os.path.join(forms, 'other')
    calls = ((2, []), (2, ['--check']), (2, ['--out', os.path.join(room, 'x'), '--check', later]), (2, ['--check', '--main', 'None', later]),
             (2, ['--out', forms, later]), (3, ['--check', os.path.join(forms, 'nothing')]), (2, ['--check', '--option', 'A=field:Main.A', later]),
             (2, ['--check', '--option', 'A=field:Other.FIXED', other]), (2, ['--check', os.path.join(forms, 'both')]),
             (2, ['--check', '--option', 'A=colour:red', later]), (2, ['--check', '--option', 'A=call:Main.none', later]),
             (2, ['--check', '--loose', 'all', later]), (3, ['--check', '--model', os.path.join(room, 'none'), '--model-out', os.path.join(room, 'm'), later]))
    for status, words in calls:
        done = prepare(*words)
        if done.returncode != status or not done.stderr:
            yield f'{words}: status {done.returncode}'


def faults(varexj, room, forms, only=''):
    """All faults, or those of one form, of `models` or of `calls`."""
    yield from form_faults(varexj, room, forms, only)
    if only in ('', 'models'):
        yield from model_faults(room, forms)
    if only in ('', 'calls'):
        yield from call_faults(room, forms)


def main(varexj):
    with tempfile.TemporaryDirectory() as room:
        forms = os.path.join(room, 'forms')
        os.mkdir(forms)
        made(forms)
        found = list(faults(varexj, room, forms))
        found += on_the_java_machine(os.path.join(forms, 'old'), 'the original of old')
    for fault in found:
        print(fault)
    print(f'{len(FORMS)} forms of class files, 2 models and 13 calls with a fault: {len(found)} faults')
    return 1 if found else 0


if __name__ == '__main__':
    sys.exit(main(os.path.abspath(sys.argv[1])))
