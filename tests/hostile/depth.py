"""Gives the program a small stack, and diagrams for which there is no memory.

    python3 tests/hostile/depth.py VAREXJ

- Every worked case passes with a stack of 512 KiB, and so do the deepest inputs.
- A diagram that needs more nodes than there is memory ends with status 1 (no memory), in bounded time, and nothing is written.
"""

import os
import resource
import subprocess
import sys
import tempfile

import dear_classes
import trying
import common

STACK = 512 << 10
# Bytes of address space, and the seconds of the processor in which they have to be used up.
MEMORIES = {64 << 20: 20, 256 << 20: 60, 1 << 30: 200}
NO_MEMORY = (1, b'', b'no memory\n')
# Folders in each other whose path has fewer than 4,095 bytes.
DEEPEST = 1900
OPTIONS = 64
PAIRS = OPTIONS // 2


def limited(what, most):
    """For a child: it has no more of something than so much."""
    return lambda: resource.setrlimit(what, (most, most))


def try_cases(varexj, tally):
    """The worked cases."""
    script = os.path.join(trying.CASES, 'run_cases.py')
    done = subprocess.run([sys.executable, script, varexj], capture_output=True, preexec_fn=limited(resource.RLIMIT_STACK, STACK))
    print('cases with a stack of 512 KiB: ' + done.stdout.decode().strip().split('\n')[-1])
    tally.judge('cases with a stack of 512 KiB', None if done.returncode == 0 else done.stdout.decode())


def deep_inputs():
    """Classes and folders that are as deep as they may be: (name, files, words, what has to come)."""
    unfinished = b'varexj report 1\noptions 0\nlimit 100\nrounds 100\nend 1 unfinished\ndone\n'
    returned = b'varexj report 1\noptions 0\nlimit 100\nrounds 1\nend 1 return\ndone\n'
    run, verify = ['run', 'f', 'model', 'Main', '100', '1'], ['verify', 'f', 'model', 'Main']
    replay = ['replay', 'f', 'model', 'Main', '100', '-']
    replayed = b'varexj replay 1\nend return\nattempts 1\nat Main.main([Ljava/lang/String;)V@0 -\ndone\n'
    for name in ('a chain of superclasses', 'a chain of interfaces'):
        classes = {f'f/{key}.class': made.bytes() for key, made in dear_classes.FOLDERS[name]().items()}
        yield name, {'model': b'', **classes}, run, (0, unfinished, b'')
        yield f'{name}, verified', {'model': b'', **classes}, verify, (0, b'verified\n', b'')
    cycle = {f'f/{key}.class': made.bytes() for key, made in dear_classes.cycle_at_the_end().items()}
    yield 'a cycle at the end of a chain', {'model': b'', **cycle}, run, (8, b'', b'cycle C1021\n')
    deep = {'model': b'', 'f/' + 'd/' * DEEPEST + 'Main.class': dear_classes.started().bytes()}
    yield f'folders {DEEPEST} deep', deep, run, (0, returned, b'')
    yield f'folders {DEEPEST} deep, verified', deep, verify, (0, b'verified\n', b'')
    yield f'folders {DEEPEST} deep, replayed', deep, replay, (0, replayed, b'')


def try_deep_inputs(varexj, tally):
    for name, files, words, wanted in deep_inputs():
        with tempfile.TemporaryDirectory() as folder:
            for path, data in files.items():
                trying.write(os.path.join(folder, path), data)
            ended = trying.called([varexj, *words], folder, preexec_fn=limited(resource.RLIMIT_STACK, STACK))
            # Python itself can't remove folders that are so deep.
            subprocess.run(['rm', '-rf', os.path.join(folder, 'f')], check=True)
        tally.judge(f'{name}, with a stack of 512 KiB', None if ended[:3] == wanted else ended.told())


def equal_pairs():
    """Rules by which option i is as option i + 32: the diagram over the first 32 options has 2 to the 32nd nodes."""
    rules = [f'rule (o{i} -> o{i + PAIRS}) & (o{i + PAIRS} -> o{i})' for i in range(PAIRS)]
    return '\n'.join([*(f'option o{i}' for i in range(OPTIONS)), *rules, '']).encode()


def equal_pairs_in_one_rule():
    rules = [f'(o{i} & o{i + PAIRS} | !o{i} & !o{i + PAIRS})' for i in range(PAIRS)]
    return '\n'.join([*(f'option o{i}' for i in range(OPTIONS)), 'rule ' + ' & '.join(rules), '']).encode()


def equal_pairs_of_clauses():
    clauses = [f'{a} -{b} 0\n-{a} {b} 0' for a, b in ((i, i + PAIRS) for i in range(1, PAIRS + 1))]
    return '\n'.join([f'p cnf {OPTIONS} {OPTIONS}', *clauses, '']).encode()


def unequal_pairs_program(varexj, folder):
    """A program that prints where option i is as option i + 32 for each i; its model allows all."""
    lines = ['class 0021 Main java/lang/Object', *(f'field 0009 o{i} Z' for i in range(OPTIONS)),
             'method 0009 main ([Ljava/lang/String;)V 2 1']
    for i in range(PAIRS):
        lines += [f'getstatic Main o{i} Z', f'getstatic Main o{i + PAIRS} Z', 'if_icmpne End']
    lines += ['getstatic java/lang/System out Ljava/io/PrintStream;', 'iconst_1', 'invokevirtual java/io/PrintStream println (I)V', 'End:',
              'return', 'end', '']
    trying.write(os.path.join(folder, 's'), '\n'.join(lines).encode())
    with open(common.assembled(varexj, os.path.join(folder, 's'), os.path.join(folder, 's.class')), 'rb') as file:
        made = file.read()
    return made, ''.join(f'option o{i} Main o{i}\n' for i in range(OPTIONS)).encode()


def exploding(varexj, folder):
    """(name, path of the model, model, class file of Main)."""
    returns = dear_classes.started().bytes()
    yield 'rules', 'model', equal_pairs(), returns
    yield 'one rule', 'model', equal_pairs_in_one_rule(), returns
    yield 'clauses', 'model.cnf', equal_pairs_of_clauses(), returns
    program, model = unequal_pairs_program(varexj, folder)
    yield 'a program', 'model', model, program


def report_of(nodes, pieces, ends):
    """A report over all options, with these lines."""
    front = ['varexj report 1', f'options {OPTIONS}', *(f'option o{i}' for i in range(OPTIONS)), 'limit 100', 'rounds 1']
    return '\n'.join([*front, *nodes, *pieces, *ends, 'done', '']).encode()


def each_where_on(first):
    """A report with 32 pieces, each of another character, that come where each option from the first on is on."""
    nodes = [f'node {2 + i} {first + i} 0 1' for i in range(PAIRS)]
    return report_of(nodes, [f'out {2 + i} {chr(48 + i)}' for i in range(PAIRS)], ['end 1 return'])


def ends_of_pairs():
    """A report with 32 ends, each where an option and the one 32 behind it are on; each configuration may have many."""
    nodes = [f'node {2 + 2 * i} {i + PAIRS} 0 1\nnode {3 + 2 * i} {i} 0 {2 + 2 * i}' for i in range(PAIRS)]
    return report_of(nodes, [], [f'end {3 + 2 * i} exit {i}' for i in range(PAIRS)])


# Reports whose sets explode where they are put together: (words, the files).
EXPLODING_REPORTS = [
    (['agree', 'one', 'other'], {'one': lambda: each_where_on(0), 'other': lambda: each_where_on(PAIRS)}),
    (['compare', 'one', 'other'], {'one': lambda: each_where_on(0), 'other': lambda: each_where_on(PAIRS)}),
    *[([command, 'one'], {'one': ends_of_pairs}) for command in ('cover', 'explain', 'check', 'count', 'list')]]


def try_in_memories(varexj, words, name, tally, folder):
    """Calls the program with little memory and with more: it ends without memory, in the seconds that it has."""
    for most, seconds in MEMORIES.items():
        ended = trying.measured([varexj, *words], folder, seconds, most)
        print(f'{name} in {most >> 20} MiB: {ended.seconds:.1f} s of {seconds}', flush=True)
        tally.judge(f'{name} in {most >> 20} MiB', None if ended[:3] == NO_MEMORY else ended.told())


def try_exploding_reports(varexj, tally):
    for words, files in EXPLODING_REPORTS:
        with tempfile.TemporaryDirectory() as folder:
            for path, make in files.items():
                trying.write(os.path.join(folder, path), make())
            try_in_memories(varexj, words, f'{words[0]} of sets that explode', tally, folder)


def try_exploding(varexj, tally):
    with tempfile.TemporaryDirectory() as folder:
        for name, path, model, made in exploding(varexj, folder):
            trying.write(os.path.join(folder, path), model)
            trying.write(os.path.join(folder, 'f', 'Main.class'), made)
            try_in_memories(varexj, ['run', 'f', path, 'Main', '100000', '1'], f'{name} that explode', tally, folder)
            if name != 'a program':
                # Verifying asks for no set of configurations.
                ended = trying.measured([varexj, 'verify', 'f', path, 'Main'], folder, 1, min(MEMORIES))
                tally.judge(f'{name} that explode, verified', None if ended[:3] == (0, b'verified\n', b'') else ended.told())


def main(varexj):
    tally = trying.Tally()
    try_cases(varexj, tally)
    try_deep_inputs(varexj, tally)
    try_exploding(varexj, tally)
    try_exploding_reports(varexj, tally)
    return tally.status()


if __name__ == '__main__':
    sys.exit(main(trying.program()))
