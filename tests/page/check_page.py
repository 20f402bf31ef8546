#!/usr/bin/env python3
"""The page of a report in a real browser, compared with the report by other means.

    python3 check_page.py PROGRAM [--choices N] [--picture PATH]

PROGRAM is varexj; where it has no command `page` yet, or is `-`, pages are put together by page/make.py. A headless Chromium opens the pages of the report of examples/mail
and of two reports of 64 options, and is led through two hundred choices of their options, by clicks and by addresses. At each of them the switches, which of them are greyed, the counts of
ends and pieces, and what is printed have to be those that reports.py finds; where one configuration is left, its end and output have to be those of `project`. Then: an example of
each end, rules at random settings, what flips say, a search, the keyboard, names for a screen reader, contrast in both schemes, widths of 400 and 1,400 pixels, and a large report in two seconds of processor time, which the
load of the machine doesn't change. Where no
Chromium starts, one line says that nothing was tested. The last line is `N checks, M faults`."""
import importlib.util
import json
import os
import random
import sys
import tempfile

import browser
import reports

HERE = os.path.dirname(os.path.abspath(__file__))
TOP = os.path.dirname(os.path.dirname(HERE))
sys.path.insert(0, os.path.dirname(HERE))

from common import called

ANY = reports.ANY
CHOICES = 200

STATE = """(() => {
  const texts = (rows) => [...rows].map((row) => [row.querySelector('code').textContent, row.querySelector('code.part') === null, row.querySelector('small')?.textContent ?? '', row.style.getPropertyValue('--share')]);
  return {
    count: document.getElementById('count').textContent,
    address: decodeURIComponent(location.hash.slice(1)),
    link: document.getElementById('address').getAttribute('href'),
    switches: [...document.querySelectorAll('fieldset')].map((set) => [set.querySelector('legend').textContent, Number(set.querySelector('input:checked').value), [...set.querySelectorAll('input')].map((input) => input.disabled)]),
    ends: [...document.querySelectorAll('#ends tr')].map((row) => [...row.cells].slice(0, 3).map((cell) => cell.textContent)),
    out: texts(document.querySelectorAll('#out li')),
    err: texts(document.querySelectorAll('#err li')),
    flips: [...document.querySelectorAll('#flips li')].map((row) => row.textContent),
    attempts: document.getElementById('attempts').textContent,
    note: document.getElementById('flips-note').textContent,
  };
})()"""

# Sets the address and waits until the page has followed it.
FOLLOW = """new Promise((done, failed) => {
  const wanted = %s;
  const until = Date.now() + 20000;
  const look = () => {
    if (document.getElementById('address').getAttribute('href') === wanted) { done(); } else if (Date.now() > until) { failed('the page does not follow'); } else { setTimeout(look, 1); }
  };
  location.hash = wanted;
  look();
})"""

CONTRASTS = """(() => {
  const canvas = document.createElement('canvas').getContext('2d', { willReadFrequently: true });
  const over = (...colours) => {
    for (const colour of colours) { canvas.fillStyle = colour; canvas.fillRect(0, 0, 1, 1); }
    return [...canvas.getImageData(0, 0, 1, 1).data].slice(0, 3);
  };
  const light = (rgb) => rgb.map((c) => c / 255).map((c) => (c <= 0.04045 ? c / 12.92 : ((c + 0.055) / 1.055) ** 2.4)).reduce((sum, c, i) => sum + c * [0.2126, 0.7152, 0.0722][i], 0);
  const paper = getComputedStyle(document.body).backgroundColor;
  const seen = [];
  for (const node of document.querySelectorAll('h1, h2, h3, p, a, legend, label, th, td, code, small, button, summary, mark, input[type=search]')) {
    const style = getComputedStyle(node);
    const behind = [paper];
    for (let up = node, own = []; up; up = up.parentElement) {
      own.push(getComputedStyle(up).backgroundColor);
      if (up === document.body) { behind.push(...own.reverse()); }
    }
    const [ink, ground] = [light(over(...behind, style.color)), light(over(...behind))];
    seen.push([(Math.max(ink, ground) + 0.05) / (Math.min(ink, ground) + 0.05), node.tagName + ' ' + node.textContent.slice(0, 20)]);
  }
  return seen.sort((a, b) => a[0] - b[0])[0];
})()"""


def load_make():
    spec = importlib.util.spec_from_file_location('make', os.path.join(TOP, 'crates', 'vx_page', 'page', 'make.py'))
    module = importlib.util.module_from_spec(spec)
    spec.loader.exec_module(module)
    return module


class Tally:
    def __init__(self):
        self.checks, self.faults = 0, 0

    def check(self, holds, *said):
        self.checks += 1
        if not holds:
            self.faults += 1
            if self.faults <= 20:
                print(*said)


class Trial:
    """A report, its page in the browser, and what is compared."""

    def __init__(self, tally, page, program, folder, name, text):
        self.tally, self.page, self.program, self.name = tally, page, program, name
        self.report = reports.Report(text)
        self.open_choice = [ANY] * len(self.report.options)
        self.in_all, self.ends_in_all, _ = self.report.numbers(self.open_choice)
        self.random = random.Random(name)
        self.report_path, self.path = os.path.join(folder, name), os.path.join(folder, name + '.html')
        with open(self.report_path, 'w', encoding='ascii', newline='') as file:
            file.write(text)
        with open(self.path, 'w', encoding='ascii', newline='') as file:
            file.write(self.page_text(text))

    def page_text(self, text):
        made = load_make().page(text)
        done = called([self.program, 'page', self.report_path]) if self.program != '-' else None
        if done is None or done.status == 2:
            return made
        self.check(done.status == 0 and done.out == made.encode('ascii'), 'page is not the front, the report and the back')
        return done.out.decode('ascii')

    def check(self, holds, *said):
        self.tally.check(holds, self.name + ':', *said)

    def open(self, address=''):
        seconds = self.page.open(self.path, address)
        self.check(not self.page.faults(), 'the script', self.page.faults())
        return seconds

    def state(self):
        return self.page.value(STATE)

    # ---- choices

    def address(self, choice):
        """The address of a choice by the rule that the page's users are told."""
        names = self.report.options
        on = [name for name, value in zip(names, choice) if value == 1]
        off = ['!' + name for name, value in zip(names, choice) if value == 0]
        if choice and ANY not in choice:
            return ','.join(on) or '-'
        return '' if not on + off else ','.join(on + (off or ['*']))

    def some_choice(self):
        """A choice: often with a configuration, and often of only one."""
        options = len(self.report.options)
        choice = [ANY] * options
        if self.random.random() < 0.08:
            return [self.random.choice((0, 1, ANY)) for _ in choice]
        left = options if self.random.random() < 0.5 else self.random.randrange(options)
        for option in self.random.sample(range(options), left):
            choice[option] = self.random.randrange(2)
            if not self.report.allows(choice):
                choice[option] = 1 - choice[option]
        return choice

    def go(self, choice):
        """Leads the page to a choice: by an address, or by one that leaves up to five options open and a click for each of these."""
        clicked = self.random.sample(range(len(choice)), min(5, len(choice))) if self.report.allows(choice) else []
        address = json.dumps('#' + self.address([ANY if i in clicked else value for i, value in enumerate(choice)]))
        self.page.value(FOLLOW % address)
        for option in clicked:
            self.page.value("document.querySelector('#option-%s input[value=\"%d\"]').click()" % (self.report.options[option], choice[option]))

    # ---- what is compared at a choice

    def text_of(self, text):
        return ''.join(chr(0x2400 + ord(c)) if ord(c) < 32 and c not in '\t\n' else c for c in text.decode('utf-8', 'replace'))

    def joined(self, parts):
        """Texts with numbers, those put together that follow one another with one number."""
        made = []
        for number, text in parts:
            if made and made[-1][0] == number:
                made[-1][1] += text
            else:
                made.append([number, text])
        return made

    def rows(self, rows, allowed):
        parts = []
        for text, whole, share, shade in rows:
            number = int(share.split(' of ')[0]) if share else allowed
            self.check(not share or share == '%d of %d' % (number, allowed), 'share', share, allowed)
            self.check(abs(float(shade.rstrip('%')) - 100 * number / allowed) < 0.11, 'shade', shade, number, allowed)
            parts.append((number, text + ('\n' if whole else '')))
        return self.joined(parts)

    def compare(self, choice):
        state, report = self.state(), self.report
        allowed, ends, pieces = report.numbers(choice)
        where = self.address(choice)
        self.check(state['address'] == where and state['link'] == '#' + where, 'address', state['address'], where)
        greyed = [[not report.allows(choice[:i] + [value] + choice[i + 1:]) for value in (0, 1)] + [False] for i in range(len(choice))]
        self.check(state['switches'] == [[name, value, grey] for name, value, grey in zip(report.options, choice, greyed)], 'switches at', where)
        self.check(state['count'].split(',')[0] == '%d of %d configurations' % (allowed, self.in_all), state['count'], 'at', where, allowed)
        self.check([row[:2] for row in state['ends']] == [[str(n), words] for n, (_, words) in zip(ends, report.ends)], 'ends at', where, state['ends'], ends)
        self.check(state['attempts'].removeprefix('attempts: ') == report.attempts_in(choice), 'attempts at', where, state['attempts'])
        for stream in ('out', 'err'):
            wanted = self.joined([(n, self.text_of(text)) for n, (its, _, text) in zip(pieces, report.pieces) if its == stream and n > 0])
            self.check(self.rows(state[stream], allowed) == wanted, stream, 'at', where, state[stream], wanted)
        if ANY not in choice and allowed == 1:
            self.compare_run(choice, state)

    def projection(self, setting):
        """The end, and the bytes on each stream."""
        if self.program == '-':
            return self.report.end_at(setting), {stream: self.report.output_at(setting, stream) for stream in ('out', 'err')}
        said = called([self.program, 'project', self.report_path, self.report.config(setting)]).out.decode('ascii')
        lines = [line.split(' ', 1) for line in said.splitlines()]
        printed = {stream: b''.join(reports.unescaped(words) for first, words in lines if first == stream) for stream in ('out', 'err')}
        return next(words for first, words in lines if first == 'end'), printed

    def compare_run(self, setting, state):
        end, printed = self.projection(setting)
        where = self.report.config(setting)
        self.check(state['count'].endswith(', it ends: ' + end), 'end at', where, state['count'], end)
        self.check([row[1] for row in state['ends'] if row[0] == '1'] == [end], 'end row at', where)
        for stream in ('out', 'err'):
            shown = ''.join(text + ('\n' if whole else '') for text, whole, _, _ in state[stream])
            self.check(shown == self.text_of(printed[stream]), stream, 'of', where)
        self.compare_flips(setting, state, end, printed)

    def compare_flips(self, setting, state, end, printed):
        """Each option whose flip leaves a configuration is told with its end, if that is another, or among those that change nothing."""
        told = {row.split(':')[0]: row for row in state['flips']}
        for option, name in enumerate(self.report.options):
            flipped = [value != (i == option) for i, value in enumerate(setting)]
            then = self.report.end_at(flipped)
            row = told.get(name + (' on' if flipped[option] else ' off'), '')
            if then is None:
                self.check(not row and self.among(name, state['note'], 'No configuration is left by'), 'flip of', name, 'is not allowed')
                continue
            changed = [stream for stream in ('out', 'err') if self.report.output_at(flipped, stream) != printed[stream]]
            self.check(('ends ' + then in row) == (then != end), 'end of the flip of', name, row)
            self.check([stream for stream in ('out', 'err') if stream + ':' in row] == changed, 'output of the flip of', name, row)
            self.check(bool(row) or self.among(name, state['note'], 'Nothing changes by'), 'flip of', name, 'is not told')

    def among(self, name, note, head):
        return any(name in sentence[len(head):].strip(' .').split(', ') for sentence in note.split('. ') if sentence.startswith(head))

    # ---- what is compared once

    def examples(self):
        self.go(self.open_choice)
        for place, ((_, words), number) in enumerate(zip(self.report.ends, self.ends_in_all)):
            self.page.value("document.querySelectorAll('#ends button')[%d].click()" % place)
            state = self.state()
            if number:
                setting = [value for _, value, _ in state['switches']]
                self.check(ANY not in setting and self.report.end_at(setting) == words, 'example of', words)
                self.compare(setting)

    def rules(self):
        rules = [(rule, words) for _, words, rule in self.state()['ends']]
        for _ in range(300):
            setting = [self.random.randrange(2) for _ in self.report.options]
            end = self.report.end_at(setting)
            if end is not None:
                on = {name for name, value in zip(self.report.options, setting) if value}
                for rule, words in rules:
                    if not rule.startswith('needs'):
                        self.check(is_true(rule, on) == (words == end), 'rule', rule, 'of', words)
        return rules

    def search(self, text):
        self.open()
        before = self.state()
        rows = self.page.value("(() => { const find = document.getElementById('find'); find.value = %s; find.dispatchEvent(new Event('input')); return document.getElementById('found').textContent; })()" % json.dumps(text))
        state = self.state()
        for stream in ('out', 'err'):
            self.check(state[stream] == [row for row in before[stream] if text in row[0]], 'search in', stream)
        self.check(rows == '%d lines have it' % len(state['out'] + state['err']) and len(state['out']) > 0, 'search says', rows)
        self.page.value("(() => { const find = document.getElementById('find'); find.value = ''; find.dispatchEvent(new Event('input')); })()")

    def walk(self, choices):
        self.open()
        self.check(self.page.value("document.getElementById('report').textContent") == self.report.text, 'the page holds another text')
        self.compare(self.open_choice)
        for _ in range(choices):
            choice = self.some_choice()
            self.go(choice)
            self.compare(choice)
        choice = self.some_choice()
        self.open('#' + self.address(choice))
        self.compare(choice)
        self.examples()
        self.rules()


def is_true(rule, on):
    if rule in ('true', 'false'):
        return rule == 'true'
    return any(all((word[1:] not in on) if word[0] == '!' else (word in on) for word in term.split(' & ')) for term in rule.split(' | '))


def keyboard(trial):
    """The keyboard reaches a switch from the page's begin, and arrows move it; the address that was left comes back by a step back."""
    page, report = trial.page, trial.report
    trial.open()
    for _ in range(12):
        page.key('Tab', 9)
        if page.value("document.activeElement.name === %s" % json.dumps(report.options[1])):
            break
    trial.check(page.value("document.activeElement.name") == report.options[1], 'Tab does not reach the second option')
    page.key('ArrowUp', 38)
    state = trial.state()
    trial.check(state['switches'][1][1] == 1 and state['address'] == report.options[1] + ',*', 'ArrowUp does not choose `on`', state['switches'][1], state['address'])
    page.value('new Promise((done) => { addEventListener("hashchange", () => done(), { once: true }); history.back(); })')
    trial.check(trial.state()['switches'][1][1] == ANY, 'a step back does not bring back the choice')


def names(trial):
    """What is clicked or written into has a name."""
    said = trial.page.value("[...document.querySelectorAll('input, button, ol, a')].filter((node) => !(node.labels?.length || node.getAttribute('aria-label') || node.getAttribute('aria-labelledby') || node.textContent.trim())).map((node) => node.outerHTML)")
    trial.check(said == [], 'no name', said)
    trial.check(trial.page.value("document.documentElement.lang === 'en' && document.title !== '' && document.querySelectorAll('[role=status]').length === 2 && document.querySelectorAll('h1').length === 1"), 'language, title, status, heading')


def looks(trial):
    """Contrasts of at least 4.5 in both schemes, and no wider than the window."""
    page = trial.page
    for scheme in ('light', 'dark'):
        page.scheme(scheme)
        for address in ('', '#SIGN,ZIP,*', '#MAIL,SIGN,ZIP'):
            trial.open(address)
            least, where = page.value(CONTRASTS)
            trial.check(least >= 4.5, 'contrast', scheme, least, where)
            for width in (400, 1400):
                page.width(width)
                trial.check(page.value('document.documentElement.scrollWidth') <= width, 'wider than', width)
    page.scheme('light')
    page.width(1400)


def held(tally, page, program, folder):
    """A text that would end the page's element, its script and a comment is only a text."""
    text = 'varexj report 1\noptions 0\nlimit 1\nrounds 1\nout 1 </script><!--&lt;</pre>\\0a\nend 1 return\ndone\n'
    trial = Trial(tally, page, program, folder, 'tags', text)
    trial.open()
    trial.compare([])
    trial.check([row[0] for row in trial.state()['out']] == ['</script><!--&lt;</pre>'], 'tags in a text')


def large(tally, chromium, program, folder):
    """The least processor time of three browsers that open a large report, each with all that its process does from its begin on."""
    spent = []
    for _ in range(3):
        page = browser.Browser(chromium)
        try:
            page.width(1400)
            trial = Trial(tally, page, program, folder, 'large', reports.large())
            seconds = trial.open()
            spent.append((page.processor_seconds(), seconds))
        finally:
            page.close()
    print('a report of %d nodes and %d pieces opens in %.2f s of processor time, %.2f s by the clock' % (len(trial.report.nodes), len(trial.report.pieces), *min(spent)))
    trial.check(min(spent)[0] < 2, 'it takes longer than two seconds')


def main(words):
    program = words[0]
    choices = int(words[words.index('--choices') + 1]) if '--choices' in words else CHOICES
    chromium = browser.find()
    if chromium is None:
        print('no Chromium starts here, so no page was tested in a browser')
        return 0
    tally = Tally()
    with open(os.path.join(TOP, 'examples', 'mail', 'texts', 'report'), encoding='ascii') as file:
        mail = file.read()
    with tempfile.TemporaryDirectory() as folder:
        page = browser.Browser(chromium)
        try:
            page.width(1400)
            first = Trial(tally, page, program, folder, 'mail', mail)
            for trial in (first, Trial(tally, page, program, folder, 'of_a_run', reports.of_a_run()), Trial(tally, page, program, folder, 'of_no_run', reports.of_no_run())):
                trial.walk(choices)
                print('%s: %d checks so far, %d faults' % (trial.name, tally.checks, tally.faults))
            first.search('ok')
            keyboard(first)
            names(first)
            looks(first)
            if '--picture' in words:
                page.width(1100, 620)
                first.open('#MAIL,SIGN,!FORWARD')
                page.picture(words[words.index('--picture') + 1])
                page.width(1400)
            held(tally, page, program, folder)
        finally:
            page.close()
        large(tally, chromium, program, folder)
    print('%d checks, %d faults' % (tally.checks, tally.faults))
    return 1 if tally.faults else 0


if __name__ == '__main__':
    sys.exit(main(sys.argv[1:]))
