"""Models, reports and sources that are as dear to read as one file can be, each with what has to come of it."""

import random

import colliding

MOST_BYTES = 1 << 20
MOST_REPORT_BYTES = 1 << 28
OPTIONS = 64
# How many names fall together.
COLLIDING = 49000
NESTING = 256


def filled(front, parts, between='', most=MOST_BYTES):
    """A text that begins with `front` and then has the parts again and again, up to the greatest size."""
    rest = most - len(front)
    once = between.join(parts) + between
    many = rest // len(once)
    return (front + once * many).removesuffix(between) if between else front + once * many


def option_lines(names):
    return ''.join(f'option {name}\n' for name in names)


def report(names, nodes, root):
    """The report of a program that returns at once, over a model whose allowed set is a node."""
    lines = ['varexj report 1', f'options {len(names)}', *(f'option {name}' for name in names), 'limit 100', 'rounds 1']
    return '\n'.join([*lines, *nodes, f'end {root} return', 'done', '']).encode()


def all_on(names):
    nodes = [f'node {2 + above} {len(names) - 1 - above} 0 {above + 1 if above else 1}' for above in range(len(names))]
    return report(names, nodes, len(names) + 1)


def some_on(names):
    nodes = ['node 2 63 0 1'] + [f'node {2 + above} {63 - above} {1 + above} 1' for above in range(1, len(names))]
    return report(names, nodes, len(names) + 1)


def one_at_most(names):
    """For each option from the last on: none is on from it on, and one at most."""
    nodes, none, one = ['node 2 63 1 0', 'node 3 62 1 2'], 2, 3
    for option in range(61, -1, -1):
        new = len(nodes) + 2
        nodes += [f'node {new} {option + 1} {none} 0', f'node {new + 1} {option} {one} {new}']
        none, one = new, new + 1
    return report(names, nodes, one)


def first_on(names):
    return report(names, ['node 2 0 0 1'], 2)


TEXT_NAMES = [f'o{number}' for number in range(OPTIONS)]
CNF_NAMES = [f'v{number}' for number in range(1, OPTIONS + 1)]


def one_long_conjunction():
    return filled(option_lines(TEXT_NAMES) + 'rule ', TEXT_NAMES, ' & '), all_on(TEXT_NAMES)


def one_long_disjunction():
    return filled(option_lines(TEXT_NAMES) + 'rule ', TEXT_NAMES, '|'), some_on(TEXT_NAMES)


def rules_of_pairs():
    rules = [f'rule !(o{a}&o{b})\n' for a in range(OPTIONS) for b in range(a)]
    return filled(option_lines(TEXT_NAMES), rules), one_at_most(TEXT_NAMES)


def nested_rules():
    rule = 'rule ' + '!' * (NESTING - 2) + '(' * 2 + 'o0' + '))' + '\n'
    return filled(option_lines(TEXT_NAMES), [rule]), first_on(TEXT_NAMES)


def chains_of_arrows():
    """Each rule is so deep that one more level would be refused; all hold always."""
    rule = 'rule ' + '->'.join(['o1'] * NESTING + ['true']) + '\n'
    return filled(option_lines(TEXT_NAMES), [rule]) + 'rule o0\n', first_on(TEXT_NAMES)


def comment_lines():
    return filled('rule true\n', ['#\n']), report([], [], 1)


def empty_lines():
    return filled('rule true\n', ['\n']), report([], [], 1)


def clauses_of_pairs():
    clauses = [f'-{a} -{b} 0\n' for a in range(1, OPTIONS + 1) for b in range(1, a)]
    many = filled('', clauses, most=MOST_BYTES - 20)
    return f'p cnf 64 {many.count(chr(10))}\n' + many, one_at_most(CNF_NAMES)


def one_long_clause():
    return filled('p cnf 64 1\n', [str(number) for number in range(1, OPTIONS + 1)], ' ', MOST_BYTES - 10) + ' 0\n', some_on(CNF_NAMES)


def clauses_of_one_literal():
    many = filled('', [f'{number} 0\n' for number in range(1, OPTIONS + 1)], most=MOST_BYTES - 20)
    return f'p cnf 64 {many.count(chr(10))}\n' + many, all_on(CNF_NAMES)


MODELS = {
    'one long conjunction': one_long_conjunction, 'one long disjunction': one_long_disjunction, 'rules of pairs': rules_of_pairs,
    'nested rules': nested_rules, 'chains of arrows': chains_of_arrows, 'comments': comment_lines, 'empty lines': empty_lines}
CNF_MODELS = {'clauses of pairs': clauses_of_pairs, 'one long clause': one_long_clause, 'clauses of one literal': clauses_of_one_literal}


def report_front(options):
    lines = ['varexj report 1', f'options {options}', *(f'option o{number}' for number in range(options)), 'limit 100', 'rounds 1', '']
    return '\n'.join(lines).encode()


END = b'end 1 return\ndone\n'


def one_long_text():
    """A report with one piece, and its projection."""
    front = report_front(0) + b'out 1 '
    text = b'a' * (MOST_REPORT_BYTES - len(front) - len(END) - 1)
    return front + text + b'\n' + END, b'out ' + text + b'\nend return\n'


def one_long_escaped_text():
    front = report_front(0) + b'out 1 '
    text = b'\\0a' * ((MOST_REPORT_BYTES - len(front) - len(END) - 1) // 3)
    return front + text + b'\n' + END, b'out ' + text + b'\nend return\n'


def many_pieces(most=MOST_REPORT_BYTES):
    """As many pieces as there is room for, of both streams in turn, so that none are joined."""
    front, pair = report_front(0), b'out 1 a\nerr 1 b\n'
    many = (most - len(front) - len(END)) // len(pair)
    return front + pair * many + END, b'out a\nerr b\n' * many + b'end return\n'


def many_joined_pieces():
    front, piece = report_front(0), b'out 1 a\n'
    many = (MOST_REPORT_BYTES - len(front) - len(END)) // len(piece)
    return front + piece * many + END, b'out ' + b'a' * many + b'\nend return\n'


def nodes_of_cubes(bits):
    """The nodes of a piece for each setting of so many options, numbered piece by piece, and the numbers of those pieces."""
    lines, ids, last = [], [{} for _option in range(bits)], 1
    roots = []
    for setting in range(1 << bits):
        lowest_new = bits - setting.bit_length() if setting else bits - 1
        below = 1 if lowest_new == bits - 1 else ids[lowest_new + 1][setting - (1 << (bits - 1 - lowest_new))]
        for option in range(lowest_new, -1, -1):
            last += 1
            is_on = setting >> (bits - 1 - option) & 1
            lines.append(f'node {last} {option} 0 {below}' if is_on else f'node {last} {option} {below} 0')
            ids[option][setting] = below = last
        roots.append(last if lowest_new >= 0 else ids[0][setting])
    return lines, roots


def many_nodes(bits=20):
    """A report whose pieces each stand for one setting of 20 options; the projection has the one of no option."""
    lines, roots = nodes_of_cubes(bits)
    pieces = [f'out {root} a' for root in roots]
    text = report_front(bits) + '\n'.join([*lines, *pieces, '']).encode() + END
    return text, b'out a\nend return\n'


def many_ends(bits=13):
    """A report in which each setting has an end of its own."""
    lines, roots = nodes_of_cubes(bits)
    ends = [f'end {root} exit {number}' for number, root in enumerate(roots)]
    return report_front(bits) + '\n'.join([*lines, *ends, 'done', '']).encode()


def one_end(bits):
    """A report without a piece, and with one end."""
    return report_front(bits) + END


def many_attempts(bits=13):
    """A report of version 2 in which each setting has a number of attempts of its own."""
    lines, roots = nodes_of_cubes(bits)
    numbers = [f'attempts {root} {number}' for number, root in enumerate(roots, 1)]
    return report_front(bits).replace(b'report 1', b'report 2').replace(b'limit 100', b'limit 1000000') + '\n'.join([*lines, 'end 1 return', *numbers, 'done', '']).encode()


def many_cubes(most, seed=1):
    """A report of about so many bytes: each piece comes where 12 options out of 64 have values that a generator gives."""
    generator, numbers, lines, pieces, size = random.Random(seed), {}, [], [], 0
    while size < most:
        below = 1
        for option in sorted(generator.sample(range(OPTIONS), 12), reverse=True):
            parts = (option, 0, below) if generator.random() < 0.5 else (option, below, 0)
            if parts not in numbers:
                numbers[parts] = len(numbers) + 2
                lines.append('node {} {} {} {}'.format(numbers[parts], *parts))
                size += len(lines[-1]) + 1
            below = numbers[parts]
        pieces.append(f'out {below} {len(pieces)}')
        size += len(pieces[-1]) + 1
    text = report_front(OPTIONS) + '\n'.join([*lines, *pieces, '']).encode() + END
    return text, None


def pieces_of_one_long_rule(many=400, seed=1):
    """A report of pieces under one rule of 32 terms, each of all 64 options, whose names have 64 bytes, each behind a piece that always comes."""
    generator, numbers = random.Random(seed), {}

    def diagram(option):
        """The number of a diagram over the options from one on. It splits at the first five."""
        if option == OPTIONS:
            return 1
        low, high = diagram(option + 1), diagram(option + 1) if option < 5 else 0
        parts = (option, low, high) if option < 5 or generator.random() < 0.5 else (option, high, low)
        return numbers.setdefault(parts, len(numbers) + 2)
    root = diagram(0)
    lines = ['varexj report 1', f'options {OPTIONS}', *(f'option o{number:063}' for number in range(OPTIONS)), 'limit 100', 'rounds 1']
    lines += ['node {} {} {} {}'.format(number, *parts) for parts, number in numbers.items()]
    return '\n'.join([*lines, *['out 1 a', f'err {root} b'] * many, '']).encode() + END, None


def few_nodes(many, seed=1):
    """A report of many pieces, one after the other under some 128 nodes over 16 options."""
    parts_of, nodes = drawn_by_lot(16, 9, seed)
    lines, roots = numbered(nodes[-128:], parts_of)
    printed = [f'out {roots[place % len(roots)]} a' for place in range(many)]
    return report_front(16) + '\n'.join([*lines, *printed, '']).encode() + END, None


def numbered(roots, parts_of):
    """Lines of nodes in the numbering of reports for diagrams under some roots, and the numbers of the roots."""
    numbers, lines = {'no': 0, 'all': 1}, []
    for root in roots:
        open_nodes = [root]
        while open_nodes:
            node = open_nodes[-1]
            option, *parts = parts_of.get(node, (0,))
            missing = [part for part in parts if part not in numbers]
            if node not in numbers and not missing:
                numbers[node] = len(numbers)
                lines.append(f'node {numbers[node]} {option} {numbers[parts[0]]} {numbers[parts[1]]}')
            if node in numbers:
                open_nodes.pop()
            else:
                open_nodes.append(missing[0])
    return lines, [numbers[root] for root in roots]


def drawn_by_lot(options, width, seed):
    """The parts of about so many nodes for each option, whose parts are among those of the three options behind it, and the nodes from the last option to the first."""
    generator, parts_of, numbers = random.Random(seed), {}, {}
    below = [['no', 'all']]
    for option in reversed(range(options)):
        layer = []
        for _place in range(width):
            low, high = (generator.choice(generator.choice(below[-3:])) for _side in range(2))
            if low != high and (option, low, high) not in numbers:
                numbers[option, low, high] = node = len(parts_of)
                parts_of[node] = (option, low, high)
                layer.append(node)
        if layer:
            below.append(layer)
    return parts_of, list(parts_of)


def few_pieces(many, width, seed):
    """A report of so many pieces under diagrams of about so many nodes for each of 64 options, drawn by lot."""
    parts_of, nodes = drawn_by_lot(OPTIONS, width, seed)
    lines, roots = numbered(nodes[-many:], parts_of)
    printed = [f'{"out" if place % 2 else "err"} {root} a' for place, root in enumerate(roots)]
    return report_front(OPTIONS) + '\n'.join([*lines, *printed, '']).encode() + END, None


def longer_first_piece(report):
    """The report with one byte more in its first piece."""
    lines = report.split(b'\n')
    first = next(place for place, line in enumerate(lines) if line.startswith((b'out ', b'err ')))
    lines[first] += b'a'
    return b'\n'.join(lines)


REPORTS = {
    'one long text': one_long_text, 'one long text of escapes': one_long_escaped_text, 'pieces of both streams': many_pieces,
    'pieces of one stream': many_joined_pieces, 'nodes': many_nodes}

CLASS = 'class 0021 Main java/lang/Object\n'


def source(lines_of_methods):
    """A source with these bodies."""
    methods = (f'method 0009 f{number} ()V 2 2\n{body}return\nend\n' for number, body in enumerate(lines_of_methods))
    return CLASS + ''.join(methods)


def jumps_and_labels():
    jumps = ''.join(f'L{number}:\ngoto L{number + 1}\n' for number in range(10900))
    return source([jumps + 'L10900:\n'] * 4)


def jumps_to_the_last_label():
    """Many labels in front of that to which all jumps lead."""
    labels = ''.join(f'L{number}:\n' for number in range(30000))
    jumps = 'goto Last\n' * 10900
    return source([labels + jumps + 'Last:\n'] * 2)


def repeated_label_of_long_name():
    """Jumps to a label of 60,000 bytes, which are looked for again and again."""
    label = 'a' * 60000
    return source([f'{label}:\n' + f'goto {label}\n' * 16])


def labels_of_long_names():
    """Labels of 500 bytes that differ in their ends alone, each with a jump."""
    return source([''.join(f'{"a" * 500}{number}:\ngoto {"a" * 500}{number}\n' for number in range(1000))])


def long_switches():
    switch = 'iconst_0\nlookupswitch L1 ' + ' '.join(f'{key}:L{key % 900}' for key in range(8000)) + '\n'
    labels = ''.join(f'L{number}:\nnop\n' for number in range(900))
    return source([switch + labels] * 8)


def many_fields():
    return CLASS + ''.join(f'field 0009 f{number} I\n' for number in range(52000))


def many_methods():
    return CLASS + ''.join(f'method 0101 f{number} ()V\n' for number in range(38000))


def many_numbers():
    return source(''.join(f'ldc_w int {number}\npop\n' for number in range(start, start + 16000)) for start in (100000, 200000, 300000))


def many_strings():
    return source(''.join(f'ldc_w string "{number}"\npop\n' for number in range(start, start + 13000)) for start in (100000, 200000))


def many_members():
    return source([''.join(f'getstatic C{number} f{number} I\npop\n' for number in range(10000, 23000))])


def colliding_labels():
    """Labels that fall together where the table of labels has no key."""
    return source([''.join(f'{name}:\n' for name in colliding.names(COLLIDING))])


def colliding_constants():
    """Names of fields that fall together where the pool has no key."""
    return CLASS + ''.join(f'field 0009 {name} I\n' for name in colliding.names(COLLIDING, 1, ((1, 1),)))


def colliding_members():
    """The same where the table of members has no key."""
    return CLASS + ''.join(f'field 0009 {name} I\n' for name in colliding.names(COLLIDING, 1, (), ((1, 8), (ord('I'), 1))))


def many_catch_rows():
    rows = 'catch A B C any\n' * 60000
    return source(['A:\nnop\nB:\nnop\nC:\n' + rows])


def many_interfaces():
    return CLASS + 'implements I\n' * 65535


def long_lines():
    return CLASS + '# ' + 'a' * (MOST_BYTES - len(CLASS) - 3) + '\n'


def no_labels():
    """A method in which the first jump leads to no label, behind many labels."""
    jumps = ''.join(f'L{number}:\ngoto L{number + 1}\n' for number in range(10900))
    return source(['goto Nowhere\n' + jumps])


# Sources that are assembled, and sources that are refused, with the line that says so.
SOURCES = {
    'jumps and labels': jumps_and_labels, 'jumps to a long label': repeated_label_of_long_name, 'labels of long names': labels_of_long_names,
    'jumps to the last label': jumps_to_the_last_label, 'long switches': long_switches,
    'fields': many_fields, 'methods': many_methods, 'numbers': many_numbers, 'strings': many_strings, 'members': many_members,
    'labels that fall together': colliding_labels, 'constants that fall together': colliding_constants, 'members that fall together': colliding_members,
    'catch rows': many_catch_rows, 'interfaces': many_interfaces, 'one long comment': long_lines}
BAD_SOURCES = {
    'a jump to no label in front of many': (no_labels, 'bad source line 3 reason 4'),
    'nothing but empty lines': (lambda: '\n' * MOST_BYTES, f'bad source line {MOST_BYTES + 1} reason 5'),
    'one long name': (lambda: 'class 0021 ' + 'a' * (MOST_BYTES - 13) + ' b', 'bad source line 1 reason 8'),
    'one long line of words': (lambda: 'class 0021' + ' a' * ((MOST_BYTES - 10) // 2), 'bad source line 1 reason 2')}
