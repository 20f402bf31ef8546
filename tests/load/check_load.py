"""Compares what `load` writes with what `run` writes of the same classes in files.

    python3 check_load.py VAREXJ

The classes are written here as sources, by what is said of the workload: Main goes through its options, and lets a Keep or a Turn step a number for
each, as the option says. Their report has to print at each configuration, or with all options on and with none where there are more than six, the
number that comes of these steps; and its summary has to be the text of `load`. The last line is `load: N passed, M failed`.
"""

import itertools
import os
import sys
import tempfile

HERE = os.path.dirname(os.path.abspath(__file__))
sys.path[:0] = [os.path.dirname(HERE), os.path.join(os.path.dirname(HERE), 'people')]

import check_people
from common import assembled, called, written

# Seeds, and numbers of options.
WORKLOADS = [
    (7, 1),
    (9, 1),
    (12, 2),
    (6, 2),
    (18446744073709551615, 5),
    (2654435769, 6),
    (11400714819323198485, 64),
]

STEP = 'class 0601 Step java/lang/Object\nmethod 0401 f (II)I\n'


def stepping(name, body):
    """A class that implements Step by some instructions."""
    constructor = 'method 0001 <init> ()V 1 1\naload_0\ninvokespecial java/lang/Object <init> ()V\nreturn\nend\n'
    return f'class 0021 {name} java/lang/Object\nimplements Step\n{constructor}method 0001 f (II)I 2 3\n{body}ireturn\nend\n'


KEEP = stepping('Keep', 'iload_1\n')
TURN = stepping('Turn', 'iload_1\niload_2\niadd\niconst_3\niand\n')


def steps(seed, options):
    """What a Turn adds for each option."""
    return [3 if seed >> number & 1 else 1 for number in range(options)]


def made(name, store):
    return f'new {name}\ndup\ninvokespecial {name} <init> ()V\n{store}\n'


def chosen(number, step):
    """The object of an option, and its step."""
    choice = f'getstatic Main O{number} Z\nifeq L{number}\naload_3\ngoto M{number}\nL{number}:\naload_2\nM{number}:\n'
    return f'{choice}iload_1\niconst_{step}\ninvokeinterface Step f (II)I\nistore_1\n'


def main_source(seed, options):
    fields = ''.join(f'field 0009 O{number} Z\n' for number in range(options))
    first = 'iconst_0\nistore_1\n' + made('Keep', 'astore_2') + made('Turn', 'astore_3')
    all_steps = ''.join(chosen(number, step) for number, step in enumerate(steps(seed, options)))
    last = 'getstatic java/lang/System out Ljava/io/PrintStream;\niload_1\ninvokevirtual java/io/PrintStream println (I)V\nreturn\n'
    return f'class 0021 Main java/lang/Object\n{fields}method 0009 main ([Ljava/lang/String;)V 6 4\n{first}{all_steps}{last}end\n'


def number_at(seed, on):
    """The number that is printed at a configuration."""
    number = 0
    for is_on, step in zip(on, steps(seed, len(on))):
        number = number + step & 3 if is_on else number
    return number


def told(varexj, *words):
    """What a call writes, or nothing where it is refused."""
    done = called([varexj, *words])
    return done.out if done.status == 0 and not done.err else b''


def report_of(varexj, seed, options, folder):
    """What `run` writes of the classes and the model in files."""
    classes, model = os.path.join(folder, 'classes'), os.path.join(folder, 'model')
    os.mkdir(classes)
    for name, source in (('Main', main_source(seed, options)), ('Step', STEP), ('Keep', KEEP), ('Turn', TURN)):
        assembled(varexj, written(os.path.join(folder, name + '.jasm'), source), os.path.join(classes, name + '.class'))
    written(model, ''.join(f'option O{number} Main O{number}\n' for number in range(options)))
    return told(varexj, 'run', classes, model, 'Main', '1000000', '1').decode('ascii')


def printed(report, on):
    """What a report says that is written to `out` at a configuration."""
    _, nodes, _, _ = check_people.read_report(report)
    pieces = [line.split(' ', 2) for line in report.splitlines() if line.startswith('out ')]
    return ''.join(text for _, node, text in pieces if check_people.holds(nodes, int(node), on))


def summary(report, seed):
    """How large a report is, and what is written with all options on and with none."""
    options, nodes, pieces, ends = check_people.read_report(report)
    rounds = next(line for line in report.splitlines() if line.startswith('rounds '))
    sizes = f'seed {seed}\noptions {len(options)}\n{rounds}\nnodes {len(nodes)}\npieces {len(pieces)}\nends {len(ends)}\n'
    all_on, none = (printed(report, [value] * len(options)) for value in (True, False))
    return f'varexj load 1\n{sizes}all {all_on}\nnone {none}\ndone\n'


def configurations(options):
    if options > 6:
        return [(True,) * options, (False,) * options]
    return itertools.product((False, True), repeat=options)


def judged(varexj, seed, options):
    """What is wrong with a workload, or nothing."""
    with tempfile.TemporaryDirectory() as folder:
        report = report_of(varexj, seed, options, folder)
    if not report:
        return 'no report'
    for on in configurations(options):
        if printed(report, on) != f'{number_at(seed, on)}\\0a':
            return f'another number at {on}'
    return None if told(varexj, 'load', str(seed), str(options)) == summary(report, seed).encode() else 'another summary'


def main(varexj):
    failed = 0
    for seed, options in WORKLOADS:
        wrong = judged(varexj, seed, options)
        if wrong:
            failed += 1
            print(f'load {seed} {options}: {wrong}')
    print(f'load: {len(WORKLOADS) - failed} passed, {failed} failed')
    return 1 if failed else 0


if __name__ == '__main__':
    sys.exit(main(os.path.abspath(sys.argv[1])))
