"""Calls the program with inputs that are built to be dear, and measures each.

    python3 tests/hostile/dear.py VAREXJ [WORD]

With WORD only the inputs whose names have it. Times are seconds of the processor. Each input has a bound, of three times what was measured, and
of half a second at least; the program is stopped there. A class file is to take no more than 0.3 seconds; those that take more are told.
"""

import os
import signal
import sys
import tempfile
from typing import NamedTuple

import dear_classes
import dear_programs
import dear_texts
import trying
import common

GOAL = 0.3
LEAST_BOUND = 0.5
RETURNED = b'varexj report 1\noptions 0\nlimit 100\nrounds 1\nend 1 return\ndone\n'
MAGIC = bytes.fromhex('cafebabe')
JUMPS = 21844
READS = 2000

# How a program ends that is stopped.
STOPPED = (None, -signal.SIGXCPU, -signal.SIGKILL)

# What has no line has the least bound.
BOUNDS = {
    'folder: 32 files of texts': 9.5, 'folder: 32 files of static fields': 8.5, 'folder: 32 files of methods': 6,
    'folder: 32 files of constant values': 7, 'folder: 32 files of jumps to the end': 2.5, 'folder: 32 files of catch rows': 1.5,
    'model: rules of pairs': 1, 'model: nested rules': 1, 'clauses: clauses of pairs': 1,
    'program: a loop under 4,000 operands': 3.5, 'program: frames of 1,024 local variables': 4, 'program: a text looked for in one of 32,768 units': 3.5,
    'program: ends of a text of 262,144 units': 2, 'program: sums of 1,024 values': 5.5, 'program: a print of 1,024 values': 2.5,
    'program: an exception through 4,000,000 catch rows': 4.5, 'replay: a text looked for in one of 32,768 units': 4,
    'replay: an exception through 4,000,000 catch rows': 4.5, 'program: the same among 901 classes': 4.5, 'replay: the same among 901 classes': 4.5,
    'verify: long code': 1, 'verify: 150,000 calls of a descriptor of 3,000 bytes': 1, 'verify: 150,000 calls in a class of 20,000 methods': 1,
    'verify: calls of 15,000 methods of one descriptor of 10,000 bytes': 4,
    'verify: 120,000 casts to a name of 6,000 bytes': 4, 'verify: 100,000 reads of a field with a name of 12,000 bytes': 1,
    'verify: 4,000 catch rows of own starts': 3, 'verify: a loop of 500 copies': 2.5,
    'source: jumps and labels': 1, 'source: jumps to the last label': 1, 'source: fields': 1, 'source: methods': 1, 'source: numbers': 1,
    'source: strings': 1, 'source: members': 1,
    'project: one long text': 14.5, 'project: one long text of escapes': 9, 'project: pieces of both streams': 57,
    'project: pieces of one stream': 53, 'project: nodes': 8.5, 'interact: one long text': 7, 'interact: nodes': 1,
    'agree: one long text': 15, 'agree: pieces of both streams': 6.5, 'picture: one long text': 7.5, 'picture: pieces of both streams': 7,
    'picture: pieces under options': 1, 'cover: one long text': 8, 'cover: pieces of both streams': 4.5, 'cover: nodes': 1.5,
    'cover: pieces under options': 9, 'explain: one long text': 8.5, 'explain: pieces of both streams': 10, 'explain: nodes': 1,
    'explain: pieces under options': 2, 'explain: 400 pieces of one long rule': 3.5, 'explain: 100,000 pieces under 128 nodes': 1.5,
    'check: one long text': 8, 'check: pieces of both streams': 3.5, 'check: pieces under options': 1, 'check: 61,680 lines': 1.5,
    'check: 512 ends against 1,000 lines': 16, 'compare: one long text': 15, 'compare: pieces of both streams': 8.5, 'compare: nodes': 1,
    'compare: pieces under options': 3.5, 'compare: 4,096 ends': 3, 'compare: 4,096 ends with one': 1.5,
    'join: one long text': 23.5, 'join: pieces of both streams': 7.5, 'join: pieces under options': 3, 'join: 8,192 ends': 2, 'join: 8,192 numbers of attempts': 1, 'cut: 65,536 parts': 2,
    'count: one long text': 8, 'count: pieces of both streams': 4.5, 'count: pieces under options': 1, 'list: one long text': 8, 'list: pieces of both streams': 4.5, 'list: pieces under options': 1,
    'page: one long text': 17.5, 'page: pieces of both streams': 4.5, 'page: pieces under options': 1, 'trace: a text looked for in one of 32,768 units': 4,
    'trace: an exception through 4,000,000 catch rows': 13.5, 'trace: the same among 901 classes': 13.5,
    'cover: 131,072 pieces': 16,
    **{f'cover: 4 pieces drawn by lot, {seed}': 1.5 for seed in range(1, 21)}
}

# Those that are known to be too dear, and why.
KNOWN = {'cover: 131,072 pieces': 'the pieces are too many for one block, and each line is tried against many of them: 68 s, and 0.5 s for 32,768'}


class Dear(NamedTuple):
    """An input: what makes its files in the folder where the program is called, the words, and what has to come."""

    name: str
    make: object
    words: list
    # A function of how the call ended, which says whether that is right.
    is_right: object
    has_goal: bool = False

    def bound(self):
        return BOUNDS.get(self.name, LEAST_BOUND)


def ends_as(status, out=b'', err=b''):
    return lambda ended: ended[:3] == (status, out, err)


def put_text(path, text):
    trying.write(path, text.encode() if isinstance(text, str) else text)


def put_classes(classes):
    for name, made in classes.items():
        trying.write(f'f/{name}.class', made.bytes())


def report_of(rounds, end, limit=100):
    return f'varexj report 1\noptions 0\nlimit {limit}\nrounds {rounds}\nend 1 {end}\ndone\n'.encode()


def class_files():
    """One class file each, whose main returns at once, or jumps through all its code before."""
    for name, make in dear_classes.FILES.items():
        def files(make=make):
            put_text('model', '')
            put_classes({'Main': make()})
        limit, wanted = 100, RETURNED
        if name == 'jumps that run':
            limit, wanted = 100000, report_of(JUMPS + 1, 'return', 100000)
        yield Dear(f'class file: {name}', files, ['run', 'f', 'model', 'Main', str(limit), '1'], ends_as(0, wanted), True)


def class_folders():
    """Folders of 1,024 small classes: a field above Main is read again and again, or linking finds a cycle."""
    for name, make in dear_classes.FOLDERS.items():
        def files(make=make):
            put_text('model', '')
            put_classes(make())
        right = ends_as(0, report_of(READS, 'unfinished', READS))
        if 'cycle' in name:
            names = {'a cycle at the end of a chain': 'C1021', 'long lists of interfaces, and a cycle': 'I1021'}
            right = ends_as(8, err=f'cycle {names[name]}\n'.encode())
        yield Dear(f'folder: {name}', files, ['run', 'f', 'model', 'Main', str(READS), '1'], right)


def large_folders():
    """Folders of many class files that are each as dear as one can be."""
    for kind in dear_classes.MANY:
        def files(kind=kind):
            put_text('model', '')
            put_classes(dear_classes.folder_of(kind))
        yield Dear(f'folder: {dear_classes.MANY_FILES} files of {kind}', files, ['run', 'f', 'model', 'Main', '100', '1'], ends_as(0, RETURNED))


def models():
    """Models of the greatest size, over a main that returns at once."""
    kinds = [('model', 'model', dear_texts.MODELS), ('clauses', 'model.cnf', dear_texts.CNF_MODELS)]
    for kind, path, made in kinds:
        for name, make in made.items():
            text, wanted = make()

            def files(path=path, text=text):
                put_text(path, text)
                put_classes({'Main': dear_classes.started()})
            yield Dear(f'{kind}: {name}', files, ['run', 'f', path, 'Main', '100', '1'], ends_as(0, wanted))


def reports():
    """Reports of the greatest size, or of as many nodes as can be made here in a short time."""
    for name, make in dear_texts.REPORTS.items():
        wanted = []

        def files(make=make, wanted=wanted):
            text, out = make()
            put_text('report', text)
            wanted.append(out)
        yield Dear(f'project: {name}', files, ['project', 'report', '-'], lambda ended, wanted=wanted: ends_as(0, wanted[0])(ended))


def is_verdict(ended):
    return ended.status == 0 and ended.out.startswith((b'verified\n', b'refused ')) and not ended.err


def verdicts():
    """The class files and the folders verified."""
    for name, make in {**dear_classes.FILES, **dear_classes.VERIFIED}.items():
        def files(make=make):
            put_text('model', '')
            put_classes({'Main': make()})
        yield Dear(f'verify: {name}', files, ['verify', 'f', 'model', 'Main'], is_verdict)
    for name, make in dear_classes.FOLDERS.items():
        def files(make=make):
            put_text('model', '')
            put_classes(make())
        right = (lambda ended: ended.status == 8 and not ended.out) if 'cycle' in name else is_verdict
        yield Dear(f'verify: {name}', files, ['verify', 'f', 'model', 'Main'], right)


def is_replay(ended):
    return ended.status == 0 and ended.out.startswith(b'varexj replay 1\n') and ended.out.endswith(b'done\n') and not ended.err


def replays():
    """The class files and the folders, one configuration replayed."""
    for name, make in dear_classes.FILES.items():
        def files(make=make):
            put_text('model', '')
            put_classes({'Main': make()})
        yield Dear(f'replay: {name}', files, ['replay', 'f', 'model', 'Main', '100', '-'], is_replay)
    for name, make in dear_classes.FOLDERS.items():
        def files(make=make):
            put_text('model', '')
            put_classes(make())
        right = (lambda ended: ended.status == 8 and not ended.out) if 'cycle' in name else is_replay
        yield Dear(f'replay: {name}', files, ['replay', 'f', 'model', 'Main', '100', '-'], right)


def is_report(ended):
    is_whole = ended.out.startswith(b'varexj report 1\n') and ended.out.endswith(b'done\n') and b' illegal ' not in ended.out
    return ended.status == 0 and is_whole and not ended.err


def class_of(varexj, source):
    """The class file of a source that is given as text."""
    put_text('s', source)
    with open(common.assembled(varexj, 's', 's.class'), 'rb') as file:
        return file.read()


def programs(varexj):
    """Programs whose attempts are dear, run for all configurations, and replayed where none of their options is on."""
    for name, make in dear_programs.PROGRAMS.items():
        program = make()

        def files(program=program):
            put_text('model', program.model)
            put_text('f/Main.class', class_of(varexj, program.source))
            if program.more_classes:
                other = class_of(varexj, 'class 0021 C000 java/lang/Object\n')
                for number in range(program.more_classes):
                    put_text(f'f/C{number:03}.class', other.replace(b'C000', b'C%03d' % number))
        words = ['f', 'model', 'Main', str(program.limit)]
        yield Dear(f'program: {name}', files, ['run', *words, '1'], is_report)
        yield Dear(f'replay: {name}', files, ['replay', *words, '-'], is_replay)
        yield Dear(f'trace: {name}', files, ['trace', *words, '-'], lambda ended: ended.status == 0 and ended.out and not ended.err)


def told(command, front):
    """Reports of the greatest size, or near it, told of: what is written begins so."""
    makers = {'one long text': dear_texts.one_long_text, 'pieces of both streams': lambda: dear_texts.many_pieces(1 << 24),
              'nodes': lambda: dear_texts.many_nodes(14), 'pieces under options': lambda: dear_texts.many_cubes(1 << 22),
              '400 pieces of one long rule': dear_texts.pieces_of_one_long_rule}
    for name, make in makers.items():
        yield Dear(f'{command}: {name}', lambda make=make: put_text('report', make()[0]), [command, 'report'],
                   lambda ended: ended.status == 0 and ended.out.startswith(front) and not ended.err)


def told_by_lot(command, front, pieces, width):
    """The same of reports of a few pieces under diagrams that are drawn by lot, twenty times."""
    for seed in range(1, 21):
        yield Dear(f'{command}: {pieces} pieces drawn by lot, {seed}', lambda seed=seed: put_text('report', dear_texts.few_pieces(pieces, width, seed)[0]), [command, 'report'],
                   lambda ended: ended.status == 0 and ended.out.startswith(front) and not ended.err)


def told_once(command, front, name, make):
    yield Dear(f'{command}: {name}', lambda: put_text('report', make()[0]), [command, 'report'],
               lambda ended: ended.status == 0 and ended.out.startswith(front) and not ended.err)


def pictures():
    return told('picture', b'digraph report {\n')


def covers():
    front = b'varexj cover 1\n'
    yield from told('cover', front)
    yield from told_once('cover', front, '131,072 pieces', lambda: dear_texts.many_nodes(17))
    yield from told_by_lot('cover', front, 4, 64)


def explanations():
    front = b'varexj explain 2\n'
    yield from told('explain', front)
    yield from told_once('explain', front, '100,000 pieces under 128 nodes', lambda: dear_texts.few_nodes(100000))


def counts():
    return told('count', b'varexj count 1\n')


def lists():
    return told('list', b'varexj list 1\n')


def pages():
    return told('page', b'<!doctype html>\n')


def checks():
    """Reports checked, also where all fails, or many lines speak of one end."""
    yield from told('check', b'varexj check 1\n')
    failing = lambda ended: ended.status == 15 and ended.out.startswith(b'varexj check 1\n') and ended.err == b'failing\n'
    yield Dear('check: 8,192 ends', lambda: put_text('report', dear_texts.many_ends()), ['check', 'report'], failing)
    lines = b'return when true\n'

    def files():
        put_text('report', dear_texts.one_end(13))
        put_text('expected', lines * (dear_texts.MOST_BYTES // len(lines)))
    yield Dear('check: 61,680 lines', files, ['check', 'report', 'expected'], ends_as(0, b'varexj check 1\nof 8192\nfailing 0\ndone\n'))

    def products():
        put_text('report', dear_texts.many_ends(9))
        put_text('expected', lines * 1000)
    yield Dear('check: 512 ends against 1,000 lines', products, ['check', 'report', 'expected'], failing)


def comparisons():
    """Reports compared with themselves, and where each of many ends is another one."""
    makers = {'one long text': (dear_texts.one_long_text, 0), 'pieces of both streams': (lambda: dear_texts.many_pieces(1 << 24), 0), 'nodes': (lambda: dear_texts.many_nodes(14), 14),
              'pieces under options': (lambda: dear_texts.many_cubes(1 << 22), 64), '4,096 ends': (lambda: (dear_texts.many_ends(12), None), 12)}
    for name, (make, bits) in makers.items():
        yield Dear(f'compare: {name}', lambda make=make: put_text('report', make()[0]), ['compare', 'report', 'report'],
                   ends_as(0, f'varexj compare 1\nof {1 << bits}\ndiffer 0\ndone\n'.encode()))

    def files():
        put_text('report', dear_texts.many_ends(12))
        put_text('other', dear_texts.one_end(12))
    yield Dear('compare: 4,096 ends with one', files, ['compare', 'report', 'other'],
               lambda ended: ended.status == 16 and ended.out.startswith(b'varexj compare 1\nof 4096\ndiffer 4096\n') and ended.err == b'differing\n')


def joins():
    """Reports joined with themselves, which gives them again with twice as many rounds."""
    makers = {'one long text': lambda: dear_texts.one_long_text()[0], 'pieces of both streams': lambda: dear_texts.many_pieces(1 << 24)[0], 'nodes': lambda: dear_texts.many_nodes(14)[0],
              'pieces under options': lambda: dear_texts.many_cubes(1 << 22)[0], '8,192 ends': dear_texts.many_ends, '8,192 numbers of attempts': dear_texts.many_attempts}
    for name, make in makers.items():
        wanted = []

        def files(make=make, wanted=wanted):
            text = make()
            put_text('report', text)
            wanted.append(text.replace(b'\nrounds 1\n', b'\nrounds 2\n', 1))
        yield Dear(f'join: {name}', files, ['join', 'report', 'report'], lambda ended, wanted=wanted: ends_as(0, wanted[0])(ended))


def cuts():
    """Models of the greatest size, of which a part may be too large, and one with 65,536 parts."""
    for path, made in (('model', dear_texts.MODELS), ('model.cnf', dear_texts.CNF_MODELS)):
        for name, make in made.items():
            yield Dear(f'cut: {name}', lambda path=path, make=make: put_text(path, make()[0]), ['cut', path, '1'],
                       lambda ended: (ended.status == 0 and ended.out and not ended.err) or (ended.status in (6, 11, 13) and ended.err and not ended.out))
    yield Dear('cut: 65,536 parts', lambda: put_text('model', ''.join(f'option o{number}\n' for number in range(16))), ['cut', 'model', '16'],
               lambda ended: ended.status == 0 and ended.out.count(b'# part ') == 1 << 16 and not ended.err)


def workloads():
    for options in (1, 32, 64):
        yield Dear(f'load: {options} options', lambda: None, ['load', '18446744073709551615', str(options)],
                   lambda ended: ended.status == 0 and ended.out.startswith(b'varexj load 1\n') and not ended.err)


def interactions():
    """The same for interact."""
    bits = 16
    names = ','.join(f'o{number}' for number in range(bits))
    pieces = ''.join(f'piece {number + 1} {bits} {names}\n' for number in range(1 << bits))
    yield Dear('interact: one long text', lambda: put_text('report', dear_texts.one_long_text()[0]), ['interact', 'report'],
               ends_as(0, b'varexj interact 1\npiece 1 0 -\nend 1 0 -\ndone\n'))
    yield Dear('interact: nodes', lambda: put_text('report', dear_texts.many_nodes(bits)[0]), ['interact', 'report'],
               ends_as(0, f'varexj interact 1\n{pieces}end 1 0 -\ndone\n'.encode()))


def is_agreement(ended):
    return ended.status == 0 and ended.out.startswith(b'varexj agree 1\n') and not ended.err


def agreements():
    """The same for agree, of a report with itself."""
    def agreed(bits):
        return f'varexj agree 1\noptions {bits}\n{"".join(f"option o{number}" + chr(10) for number in range(bits))}agree 1\ndone\n'.encode()
    words = ['agree', 'report', 'report']
    yield Dear('agree: one long text', lambda: put_text('report', dear_texts.one_long_text()[0]), words, ends_as(0, agreed(0)))
    yield Dear('agree: pieces of both streams', lambda: put_text('report', dear_texts.many_pieces(1 << 24)[0]), words, ends_as(0, agreed(0)))
    yield Dear('agree: nodes', lambda: put_text('report', dear_texts.many_nodes(10)[0]), words, ends_as(0, agreed(10)))

    def longer():
        report = dear_texts.many_nodes(12)[0]
        put_text('report', report)
        put_text('longer', dear_texts.longer_first_piece(report))
    for words in (['agree', 'report', 'longer'], ['agree', 'longer', 'report']):
        yield Dear(f'agree: one byte more in the first piece of {words[2]}', longer, words, is_agreement)


def sources():
    """Sources of the greatest size, or near it."""
    for name, make in dear_texts.SOURCES.items():
        yield Dear(f'source: {name}', lambda make=make: put_text('s', make()), ['asm', 's'],
                   lambda ended: ended.status == 0 and ended.out.startswith(MAGIC) and not ended.err)
    for name, (make, line) in dear_texts.BAD_SOURCES.items():
        yield Dear(f'source: {name}', lambda make=make: put_text('s', make()), ['asm', 's'], ends_as(12, err=line.encode() + b'\n'))


def all_inputs(varexj):
    yield from programs(varexj)
    for make in (class_files, class_folders, large_folders, models, verdicts, replays, sources, reports, interactions, agreements, checks, comparisons, joins, cuts, pictures, covers, explanations, counts, lists, pages, workloads):
        yield from make()


def problem(varexj, dear):
    """What is wrong with one input, or None; its time is printed."""
    with tempfile.TemporaryDirectory() as folder:
        os.chdir(folder)
        dear.make()
        ended = trying.measured([varexj, *dear.words], folder, dear.bound())
        seconds = ended.seconds
        os.chdir('/')
    late = '   misses the goal' if dear.has_goal and seconds > GOAL else ''
    print(f'{dear.name:<60} {seconds:8.2f} s of {dear.bound():6.1f}{late}', flush=True)
    if seconds > dear.bound() or ended.status in STOPPED:
        return f'not over after {dear.bound()} seconds'
    return None if dear.is_right(ended) else ended.told()


def main(varexj, word):
    trying.needs('gcc', 'gcc')
    known = {name: reason for name, reason in KNOWN.items() if word in name}
    tally = trying.Tally(known)
    for dear in all_inputs(varexj):
        if word in dear.name:
            tally.judge(dear.name, problem(varexj, dear))
    return tally.status()


if __name__ == '__main__':
    sys.exit(main(*trying.program_and_word()))
