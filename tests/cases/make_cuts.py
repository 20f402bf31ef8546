"""Makes the cases of `cut` beside this file: what has to come is worked out here, by going through all settings of the options, and not by the program.

    python3 make_cuts.py
"""

import itertools
import os

CASES = os.path.dirname(os.path.abspath(__file__))

SHOP = """# a shop
option CARD
option GIFT
option MAIL Shop MAIL
option FAST
rule CARD -> MAIL
rule !(GIFT & FAST)
"""

SHOP_NAMES = ['CARD', 'GIFT', 'MAIL', 'FAST']


def shop_allows(c):
    return (not c['CARD'] or c['MAIL']) and not (c['GIFT'] and c['FAST'])


# With spaces in its header, carriage returns, and no last end of line.
CLAUSES = 'c  1 A\r\nc a comment\r\np  cnf   3  2\r\n1 2 0\r\n-1 -3\r\n0'

CLAUSE_NAMES = ['A', 'v2', 'v3']

# the most bytes of a model, and of a part
ROOM = 1048576


def clauses_allow(c):
    return (c['A'] or c['v2']) and not (c['A'] and c['v3'])


REPORT = """varexj report 1
options 4
option CARD
option GIFT
option MAIL
option FAST
limit 100
rounds 4
node 2 3 0 1
node 3 1 2 1
node 4 3 1 0
out 2 a
out 3 b
out 3 c
out 4 d
end 1 return
done
"""


def terms(names, allows, chosen):
    """The settings of the chosen options that an allowed configuration has, off before on."""
    found = []
    for values in itertools.product([False, True], repeat=len(chosen)):
        fixed = dict(zip(chosen, values))
        for all_values in itertools.product([False, True], repeat=len(names)):
            c = dict(zip(names, all_values))
            if allows(c) and all(c[name] == value for name, value in fixed.items()):
                found.append(list(zip(chosen, values)))
                break
    return found


def spelled(term):
    return ' & '.join(('' if on else '!') + name for name, on in term) or 'true'


def ended(text):
    return text if text.endswith('\n') or not text else text + '\n'


def text_parts(text, names, allows, chosen):
    out = ''
    for number, term in enumerate(terms(names, allows, chosen), 1):
        out += '# part %d %s\n%srule %s\n' % (number, spelled(term), ended(text), spelled(term))
    return out


def clause_parts(text, names, allows, chosen):
    out = ''
    for number, term in enumerate(terms(names, allows, chosen), 1):
        lines = ended(text).split('\n')[:-1]
        own = []
        for line in lines:
            words = line.rstrip('\r').split()
            if words[:1] == ['p']:
                own.append('p cnf %s %d' % (words[2], int(words[3]) + len(term)))
            else:
                own.append(line)
        out += 'c part %d %s\n' % (number, spelled(term)) + ''.join(line + '\n' for line in own)
        out += ''.join('%s%d 0\n' % ('' if on else '-', names.index(name) + 1) for name, on in term)
    return out


def write(name, words, files, stdout='', status=0, stderr=''):
    folder = os.path.join(CASES, name)
    os.makedirs(folder, exist_ok=True)
    for file, text in list(files.items()) + [('args', '\n'.join(words) + '\n'), ('stdout', stdout), ('status', '%d\n' % status), ('stderr', stderr)]:
        with open(os.path.join(folder, file), 'w', newline='') as out:
            out.write(text)


def main():
    shop = {'model': SHOP}
    clauses = {'model.cnf': CLAUSES}
    both = {'model': SHOP, 'report': REPORT}
    write('cut-by-names', ['cut', 'model', 'FAST,GIFT'], shop, text_parts(SHOP, SHOP_NAMES, shop_allows, ['GIFT', 'FAST']))
    write('cut-by-no-name', ['cut', 'model', '-'], shop, text_parts(SHOP, SHOP_NAMES, shop_allows, []))
    # 9 of the 16 configurations are allowed. CARD is on in 3 of them, GIFT in 3, MAIL in 6, FAST in 3: the rarer value has 3 each, so the first ones are chosen.
    write('cut-by-number', ['cut', 'model', '2'], shop, text_parts(SHOP, SHOP_NAMES, shop_allows, ['CARD', 'GIFT']))
    # Two distinct sets depend on FAST alone and one on GIFT and FAST, as the pieces b and c come under one.
    write('cut-by-number-with-a-report', ['cut', 'model', '1', 'report'], both, text_parts(SHOP, SHOP_NAMES, shop_allows, ['FAST']))
    write('cut-clauses', ['cut', 'model.cnf', 'v3,A'], clauses, clause_parts(CLAUSES, CLAUSE_NAMES, clauses_allow, ['A', 'v3']))
    write('cut-of-all', ['cut', 'model', '4'], shop, text_parts(SHOP, SHOP_NAMES, shop_allows, SHOP_NAMES))
    write('cut-seventeen', ['cut', 'model', '17'], shop, status=2, stderr='usage\n')
    write('cut-digit-and-letter', ['cut', 'model', '2A'], shop, status=2, stderr='usage\n')
    write('cut-absent-model', ['cut', 'gone', '2'], {}, status=3, stderr='read fault gone\n')
    write('cut-bad-model', ['cut', 'model', '1', 'gone'], {'model': 'option A\nrule A B\n'}, status=5, stderr='bad model line 2 reason 4\n')
    write('cut-model-too-large', ['cut', 'model', '1'], {'model': '#' * (ROOM + 1)}, status=13, stderr='too large model %d\n' % ROOM)
    # Its first part, with 12 bytes before it and 8 behind, has one byte too many.
    write('cut-part-too-large', ['cut', 'model', 'A'], {'model': 'option A\n' + '#' * (ROOM - 29) + '\n'}, status=13, stderr='too large model %d\n' % ROOM)
    write('cut-no-number', ['cut', 'model', '0'], shop, status=2, stderr='usage\n')
    write('cut-model-that-allows-nothing', ['cut', 'model', '1', 'gone'], {'model': 'option A\nrule A & !A\n'}, status=6, stderr='no configuration\n')
    write('cut-absent-report', ['cut', 'model', 'NONE', 'gone'], shop, status=3, stderr='read fault gone\n')
    write('cut-bad-report', ['cut', 'model', 'NONE', 'model'], shop, status=10, stderr='bad report line 1\n')
    write('cut-unlike', ['cut', 'model', 'NONE', 'report'], {'model': 'option A\n', 'report': REPORT}, status=14, stderr='unlike\n')
    write('cut-no-option', ['cut', 'model', 'GIFT,NONE'], shop, status=11, stderr='not allowed\n')
    write('cut-option-twice', ['cut', 'model', 'GIFT,GIFT'], shop, status=11, stderr='not allowed\n')
    write('cut-more-options-than-there-are', ['cut', 'model', '5'], shop, status=11, stderr='not allowed\n')
    many = ''.join('option A%d\n' % k for k in range(17))
    write('cut-seventeen-names', ['cut', 'model', ','.join('A%d' % k for k in range(17))], {'model': many}, status=11, stderr='not allowed\n')


if __name__ == '__main__':
    main()
