"""A dozen runs of each command and more, over the files of worked cases and the reports that those expect."""

import os
from typing import NamedTuple

import trying

# The report that a worked case expects of `run`.
REPORT = 'stdout'


class Run(NamedTuple):
    """Words, and the worked case whose files they name."""

    case: str
    words: list

    def name(self):
        return f'{" ".join(self.words)}, {self.case}'

    def folder(self, place):
        """A folder with the files, at a place that is its own."""
        return trying.case_folder(self.case, os.path.join(place, '_'.join(self.words)))


# Cases whose runs are done, each with a report.
REPORTED = ['print-an-option', 'dimacs-model', 'equal-pairs-4-options', 'attempts-by-branch', 'remainder-by-zero', 'exit-and-uncaught',
            'exceptions-by-configuration', 'initialiser-in-one-branch', 'loop-without-end-in-one-branch', 'shop']

# Cases by their own words.
OWN = {
    'run': ['print-an-option', 'dimacs-model', 'equal-pairs-4-options', 'attempts-by-branch', 'remainder-by-zero', 'shop',
            'rule-without-operand', 'no-configuration', 'class-zero-byte-in-text', 'link-class-twice', 'folder-absent', 'limit-zero'],
    'project': ['project-option-on', 'project-not-allowed', 'project-repeated-option', 'project-unknown-option', 'report-other-numbering',
                'report-too-many-options', 'report-cut-at-40'],
    'asm': ['assemble-class-with-option', 'assemble-smallest-class', 'assemble-version-45', 'assemble-version-52', 'source-empty',
            'source-unknown-label', 'source-unknown-word', 'source-number-out-of-range', 'source-text-as-label', 'source-text-as-class',
            'source-no-text-behind-string', 'source-version-53'],
    'verify': ['verify-branches', 'verify-empty-stack', 'verify-shop', 'verify-super-call-on-another', 'verify-unlike-operands'],
    'interact': ['interact-one-option', 'interact-two-options'],
    'agree': ['agree-in-one-branch', 'agree-unlike', 'agree-with-itself', 'agree-shop-with-itself'],
    'picture': ['picture-one-option', 'picture-ends', 'picture-of-a-piece', 'picture-of-no-piece'],
    'cover': ['cover-one-option', 'cover-mail'],
    'explain': ['explain-one-option', 'explain-mail'],
    'replay': ['replay-exit', 'replay-uncaught', 'replay-with-lines'],
    'trace': ['trace-cause', 'trace-initialiser', 'trace-without-source', 'trace-refused'],
    'join': ['join-two-parts', 'join-three-with-attempts', 'join-outside-of-ends', 'join-unlike-limit', 'join-bad-second', 'join-rounds-too-many'],
    'cut': ['cut-by-names', 'cut-by-number-with-a-report', 'cut-clauses', 'cut-unlike'],
    'count': ['count-two-options', 'count-where-ends-overlap'],
    'list': ['list-two-options', 'list-where-ends-overlap'],
    'check': ['check-as-expected', 'check-other-than-expected', 'check-where-ends-overlap', 'check-expected-no-end',
              'check-expected-of-unknown-option', 'check-expected-without-rule'],
    'compare': ['compare-another-line', 'compare-another-order-of-streams', 'compare-mended-and-over-more-options', 'compare-with-a-part',
                'compare-with-itself'],
    'output': ['output-named', 'output-of-err', 'output-unknown-option'],
    'load': ['workload-summary-3-options']}

# Seeds and numbers of options of `load`; the last two are refused.
LOADS = [('0', '1'), ('1', '1'), ('1', '2'), ('7', '3'), ('9', '4'), ('21', '5'), ('1', '6'), ('99', '7'), ('1', '12'), ('1', '0'), ('1', '65')]

# Cases of `run` that are verified, the last two refused.
VERIFIED = ['print-an-option', 'dimacs-model', 'interface-call-splits', 'exceptions-by-configuration', 'static-call', 'link-cycle', 'no-main']


# Cases of `run` that are replayed at the configuration of no option, the last two refused.
REPLAYED = ['print-an-option', 'dimacs-model', 'interface-call-splits', 'exceptions-by-configuration', 'static-call', 'attempts-by-branch',
            'initialiser-in-one-branch', 'loop-without-end-in-one-branch', 'link-cycle', 'no-main']


def own_runs():
    return [Run(case, trying.case_words(case)) for cases in OWN.values() for case in cases]


def report_runs():
    """Each report told of, compared and joined with itself, and projected and put out at the configuration of no option."""
    for command in ('interact', 'picture', 'cover', 'explain', 'check', 'count', 'list', 'page'):
        yield Run('report-cut-at-40', [command, 'report'])
        for case in REPORTED:
            yield Run(case, [command, REPORT])
    for case in REPORTED[:8]:
        yield Run(case, ['agree', REPORT, REPORT])
        yield Run(case, ['compare', REPORT, REPORT])
        yield Run(case, ['join', REPORT, REPORT])
    for case in REPORTED[:5]:
        yield Run(case, ['project', REPORT, '-'])
        yield Run(case, ['output', REPORT, '-'])


def other_runs():
    """Classes verified, configurations replayed and traced, workloads, and the pages."""
    for case in REPLAYED:
        for command in ('replay', 'trace'):
            yield Run(case, [command, *trying.case_words(case)[1:5], '-'])
    for case in VERIFIED:
        yield Run(case, ['verify', *trying.case_words(case)[1:4]])
    for words in LOADS:
        yield Run('source-empty', ['load', *words])
    for page in ('--help', '--version'):
        yield Run('source-empty', [page])


def runs():
    """The runs; each has a name and a folder of its own."""
    return [*own_runs(), *report_runs(), *other_runs()]
