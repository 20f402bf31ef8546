"""Counts what a run of the gate takes.

    python3 clock.py record FILE PID    notes in FILE, every two seconds, what the checks below the process PID have used; it ends with PID
    python3 clock.py tell FILE PID      prints the minutes of proofs, of tests, of wrong bodies and of the rest, and the ten dearest crates

Minutes are of a processor; the clock's stand beside them. What was kept from earlier runs isn't counted. A busy machine makes them longer, so
they fail nothing. A crate whose own proof takes more than 240 seconds is named in a line that begins with `dear`.
"""

import json
import os
import sys
import time

DEAR = 240
TICKS = os.sysconf('SC_CLK_TCK')
KINDS = ('proofs', 'tests', 'wrong bodies')


def read(path):
    with open(path, 'rb') as file:
        return file.read()


def seen():
    """Each process: its parent, its words, the seconds that it and its ended children used, and its memory in MB."""
    found = {}
    for name in os.listdir('/proc'):
        if not name.isdigit():
            continue
        try:
            stat = read('/proc/%s/stat' % name).decode(errors='replace')
            words = read('/proc/%s/cmdline' % name).decode(errors='replace').split('\0')[:-1]
        except OSError:
            continue
        rest = stat[stat.rindex(')') + 2:].split()
        begun, used = rest[19], sum(int(it) for it in rest[11:15]) / TICKS
        memory = int(rest[21]) * os.sysconf('SC_PAGE_SIZE') // 2**20
        found[int(name)] = int(rest[1]), begun, words, used, memory
    return found


def below(processes, top):
    """The processes below one, whose words are those of a check, each with its name."""
    for number, (parent, begun, words, used, memory) in processes.items():
        if not words or os.path.basename(words[0]) != 'rattle' or '--crate-name' not in words:
            continue
        above = parent
        while above in processes and above != top:
            above = processes[above][0]
        if above == top:
            yield '%d %s' % (number, begun), words, used, memory


def kind_of(words):
    """What a check is for. rt proves a crate and its tests by `build`, and tries a wrong body by `check`."""
    if words[1] == 'check':
        return 'wrong bodies'
    return 'tests' if '--test' in words else 'proofs'


def record(path, top):
    checks, begun = {}, time.time()
    while os.path.isdir('/proc/%d' % top):
        for key, words, used, memory in below(seen(), top):
            check = checks.setdefault(key, {'crate': words[words.index('--crate-name') + 1], 'kind': kind_of(words), 'used': 0, 'memory': 0})
            check['used'] = max(check['used'], used)
            check['memory'] = max(check['memory'], memory)
        with open(path + '.new', 'w') as file:
            json.dump({'begun': begun, 'checks': list(checks.values())}, file)
        os.replace(path + '.new', path)
        time.sleep(2)


def tell(path, top):
    told = json.loads(read(path))
    checks = told['checks']
    minutes = [sum(it['used'] for it in checks if it['kind'] == kind) / 60 for kind in KINDS]
    whole = seen()[top][3] / 60
    print('the gate took %.0f minutes of the clock, and of a processor %s, rest %.0f' % (
        (time.time() - told['begun']) / 60, ', '.join('%s %.0f' % it for it in zip(KINDS, minutes)), max(0, whole - sum(minutes))))
    for kind in KINDS[:2]:
        crates = {}
        for it in checks:
            if it['kind'] == kind:
                used, memory = crates.get(it['crate'], (0, 0))
                crates[it['crate']] = used + it['used'], max(memory, it['memory'])
        dearest = sorted(crates.items(), key=lambda it: -it[1][0])
        for name, (used, memory) in dearest[:10]:
            print('%s of %s: %.0f seconds, %d MB' % (kind, name, used, memory))
        for name, (used, _) in dearest:
            if used > DEAR:
                print('dear: the %s of %s took %.0f seconds, above %d' % (kind, name, used, DEAR))


def main():
    words = sys.argv[1:]
    if len(words) == 3 and words[0] == 'record':
        record(words[1], int(words[2]))
    elif len(words) == 3 and words[0] == 'tell':
        tell(words[1], int(words[2]))
    else:
        sys.exit(__doc__)


if __name__ == '__main__':
    main()
