"""Judges the expected texts of examples/mail by what a Java machine said, without any varexj.

    python3 judge_mail.py

Beside the program and its mended version stands what a Java machine printed in each configuration and how it ended there. This script reads
the texts by its own means, and finds out at each setting of the options:

- whether each of the two reports says what the Java machine said, and nothing of a configuration that the model forbids;
- whether each rule of the explanation is true just where the Java machine had that piece or end, and each example is one of these;
- whether each line of the cover has what it names, and nothing is left out;
- whether an end or piece depends on an option just where `interactions` says so;
- whether a walk along the edges of the picture leads to `always` just where a piece or end comes;
- whether the replay has the output, the end, and the frames and lines that the Java machine had in its configuration;
- whether the trace is what the Java machine printed there;
- whether the agreement holds just where the Java machine said the same of both versions.

What isn't so is printed, and the status is then 1.
"""

import itertools
import os
import re
import sys

HERE = os.path.dirname(os.path.abspath(__file__))
sys.path.insert(0, os.path.join(os.path.dirname(HERE), 'programs'))

import check_people
import programs
import run_programs

REPLAYED = 'MAIL,SIGN,ZIP'
MAIL, MENDED = (next(program for program in programs.programs() if program.name == name) for name in ('mail', 'mail-mended'))


def read(name):
    with open(MAIL.place('texts', name), encoding='ascii') as file:
        return file.read()


class Report:
    """A report as its lines say; a setting is a value for each option, in their order."""

    def __init__(self, text):
        self.options, self.nodes, pieces, self.ends = check_people.read_report(text)
        words = [line.split(' ', 2) for line in text.splitlines() if line.split(' ')[0] in ('out', 'err')]
        self.pieces = [(node, stream, said) for node, (stream, _, said) in zip(pieces, words)]

    def settings(self):
        return itertools.product([False, True], repeat=len(self.options))

    def name_of(self, setting):
        return ','.join(option for option, on in zip(self.options, setting) if on) or '-'

    def holds(self, node, setting):
        return check_people.holds(self.nodes, node, setting)

    def subjects(self):
        """The node of each piece and each end, by its kind and number."""
        for kind, found in (('piece', self.pieces), ('end', self.ends)):
            for index, parts in enumerate(found, 1):
                yield (kind, index), parts[0]

    def projection(self, setting):
        """What it says of one setting, in the words of `varexj project`, or None."""
        end = next((said for node, said in self.ends if self.holds(node, setting)), None)
        here = [(stream, said) for node, stream, said in self.pieces if self.holds(node, setting)]
        runs = [(stream, ''.join(said for _, said in run)) for stream, run in itertools.groupby(here, lambda piece: piece[0])]
        return None if end is None else ''.join('%s %s\n' % run for run in runs) + 'end %s\n' % end


def report_faults(report, said):
    for setting in report.settings():
        if report.projection(setting) != said.get(report.name_of(setting)):
            yield 'at %s' % report.name_of(setting)


def interaction_faults(report, text):
    wanted = []
    for (kind, index), node in report.subjects():
        depends = [option for at, option in enumerate(report.options) if any(
            report.holds(node, setting) != report.holds(node, setting[:at] + (not setting[at],) + setting[at + 1:])
            for setting in report.settings())]
        wanted.append('%s %d %d %s' % (kind, index, len(depends), ','.join(depends) or '-'))
    if text.splitlines() != ['varexj interact 1', *wanted, 'done']:
        yield 'interactions'


def picture_faults(report, text):
    labels = dict(re.findall(r'^(\w+) \[label="(\w+)"', text, re.M))
    edges = {(start, bool(dashed)): to for start, to, dashed in re.findall(r'^(\w+) -> (\w+)( \[style=dashed\])?;$', text, re.M)}

    def leads(box, setting):
        at = edges.get((box, False))
        while at not in (None, '1'):
            on = setting[report.options.index(labels[at])]
            at = edges.get((at, not on))
        return at == '1'

    for (kind, index), node in report.subjects():
        for setting in report.settings():
            if leads('%s%d' % (kind, index), setting) != report.holds(node, setting):
                yield '%s %d at %s' % (kind, index, report.name_of(setting))


def replay_faults(text, said, traces):
    frames = ''.join('at %s %s\n' % frame for frame in re.findall(r'^at ([^(]*)\(\S* (\d+)$', text, re.M))
    wanted = 'varexj replay 1\n' + said[REPLAYED] + 'attempts '
    if not text.startswith(wanted) or not re.fullmatch(r'\d+\n(at \S+ \d+\n)*done\n', text[len(wanted):]):
        yield 'what it says'
    if 'config %s\n%s' % (REPLAYED, frames) not in re.split('(?=config )', traces):
        yield 'its frames'


def trace_faults(text):
    with open(os.path.join(os.path.dirname(HERE), 'traces', 'stacks', MAIL.name), encoding='utf-8') as file:
        stacks = file.read()
    if 'config %s\n%s' % (REPLAYED, text) not in re.split('(?=^config )', stacks, flags=re.M):
        yield 'what it says'


def agreement_faults(text, said, mended):
    agreement = Report(text)
    root = int(re.search(r'^agree (\d+)$', text, re.M).group(1))
    for setting in agreement.settings():
        name = agreement.name_of(setting)
        if agreement.holds(root, setting) != (name in said and said[name] == mended[name]):
            yield 'at %s' % name


def main():
    said, mended = (dict(run_programs.expected(program)) for program in (MAIL, MENDED))
    text = read('report')
    report = Report(text)
    with open(MAIL.place('traces'), encoding='ascii') as file:
        traces = file.read()
    faults = {
        'report': list(report_faults(report, said)),
        'mended_report': list(report_faults(Report(read('mended_report')), mended)),
        'explanation': check_people.explanation_faults(text, read('explanation')),
        'cover': check_people.cover_faults(text, read('cover')),
        'interactions': list(interaction_faults(report, read('interactions'))),
        'picture.dot': list(picture_faults(report, read('picture.dot'))),
        'replay': list(replay_faults(read('replay'), said, traces)),
        'trace': list(trace_faults(read('trace'))),
        'agreement': list(agreement_faults(read('agreement'), said, mended)),
    }
    for name, found in faults.items():
        for fault in found[:4]:
            print('examples/mail/texts/%s: %s' % (name, fault))
    bad = sum(map(len, faults.values()))
    print('%d texts of examples/mail, %d configurations, %d faults' % (len(faults), len(said), bad))
    return 1 if bad else 0


if __name__ == '__main__':
    sys.exit(main())
