"""Draws small Java programs by a seed: options, expressions of many types over the native methods of the core classes, casts, arrays of arrays, classes
with initialisers, and exceptions. Each program compiles; what it does is left to chance.
"""

import random

OPTIONS = ('ONE', 'TWO', 'THREE')
LENGTHS = ('0', '0', '0', '1', '1', '2', '3', '65536', '-1')
LARGE = ('65536', '1 << 20', '1 << 20', '3', '0')
PLACES = ('0', '0', '1', '1', '2', '3', '5', '-1')
ELEMENTS = ('int', 'long', 'boolean', 'char', 'byte', 'short', 'String', 'Object')
TEXTS = ('""', '"0"', '"-7"', '"true"', '"a b"', '"banana"', '"\\u00e4\\n"', '"2147483648"')
DIGITS = ('"12"', '"-7"', '"2147483648"')
INTS = ('0', '1', '-1', '7', '1000', '-128', '128', '65535', 'Integer.MAX_VALUE', 'Integer.MIN_VALUE')
LONGS = ('0L', '1L', '-1L', '40L', 'Long.MAX_VALUE', 'Long.MIN_VALUE', '4294967296L')
RAISED = ('ArithmeticException', 'IllegalStateException', 'RuntimeException', 'NullPointerException', 'Error')

HELPERS = '''
    enum Color { RED, GREEN, BLUE }

    interface Named {
        String name();

        default String twice() {
            return name() + name();
        }
    }

    static class Node implements Named, Comparable<Node> {
        final int key;
        Object held;
        Node next;
        long total = 5L;

        Node(int key, Object held) {
            this.key = key;
            this.held = held;
        }

        public String name() {
            return "n" + key;
        }

        int size() {
            return next == null ? 1 : 1 + next.size();
        }

        public int compareTo(Node other) {
            return Integer.compare(key, other.key);
        }

        public boolean equals(Object other) {
            return other instanceof Node && ((Node) other).key == key;
        }

        public int hashCode() {
            return key;
        }

        public String toString() {
            return name();
        }
    }

    static class Leaf extends Node {
        short small = (short) 70000;
        byte tiny = (byte) key;
        char letter = (char) key;

        Leaf(int key) {
            super(key, null);
        }

        int size() {
            return small + tiny + letter;
        }
    }
'''

METHODS = '''
    static String shown(Object o) {
        if (o == null) {
            return "null";
        }
        if (o instanceof String || o instanceof StringBuilder || o instanceof Integer || o instanceof Boolean || o instanceof Node || o instanceof Color) {
            return o.toString();
        }
        if (o instanceof Object[]) {
            Object[] a = (Object[]) o;
            return "[" + a.length + (a.length > 0 ? shown(a[0]) : "") + "]";
        }
        if (o instanceof int[]) {
            int[] a = (int[]) o;
            return "i" + a.length + (a.length > 0 ? ":" + a[a.length - 1] : "");
        }
        if (o instanceof char[]) {
            return "c" + ((char[]) o).length;
        }
        return o instanceof Throwable ? "t" + ((Throwable) o).getMessage() : "o";
    }

    static int ask(int depth, Object o) {
        if (depth <= 0) {
            return shown(o).length();
        }
        try {
            return ask(depth - 1, o) + (o == null ? 1 : 2);
        } finally {
            count++;
        }
    }

    static int ints(int... values) {
        int sum = 0;
        for (int value : values) {
            sum += value;
        }
        return sum;
    }
'''


class Drawer:
    """What is known while a program is drawn: its chances, and the local variables in scope by their types."""

    def __init__(self, seed, name):
        self.random = random.Random(seed)
        self.name = name
        self.locals = {}
        self.fresh = 0

    def choose(self, *ways):
        return self.random.choice(ways)

    # ---- expressions, each with a bound on how deep they nest

    def of(self, kind, depth):
        known = self.locals.get(kind)
        if known and self.random.random() < 0.3:
            return self.random.choice(known)
        return getattr(self, 'an_' + kind)(depth - 1)

    def place(self, d):
        """An index, mostly a small one."""
        return self.random.choice(PLACES) if self.random.random() < 0.8 else self.of('int', d)

    def an_int(self, d):
        if d <= 0:
            return self.random.choice(INTS)
        a, b = lambda: self.of('int', d), lambda: self.of('long', d)
        text, object_ = lambda: self.of('text', d), lambda: self.of('object', d)
        return self.choose(
            lambda: f'({a()} {self.choose("+", "-", "*", "/", "%", "&", "|", "^", "<<", ">>", ">>>")} {a()})',
            lambda: f'(int) {b()}', lambda: f'(byte) {a()}', lambda: f'(short) {a()}', lambda: f'(char) {a()}',
            lambda: f'Math.{self.choose("max", "min")}({a()}, {a()})', lambda: f'Math.abs({a()})',
            lambda: f'{text()}.length()', lambda: f'{text()}.charAt({self.place(d)})', lambda: f'{text()}.hashCode()',
            lambda: f'{text()}.compareTo({text()})', lambda: f'{text()}.indexOf({text()})', lambda: f'{text()}.indexOf({a()})',
            lambda: f'Integer.parseInt({self.random.choice(DIGITS) if d < 2 else text()})', lambda: f'Integer.compare({a()}, {a()})', lambda: f'{self.of("number", d)}.intValue()',
            lambda: f'{self.of("number", d)}.hashCode()', lambda: f'{self.of("number", d)}.compareTo({self.of("number", d)})',
            lambda: f'{self.of("truth", d)}.compareTo({self.of("truth", d)})', lambda: f'{self.of("color", d)}.ordinal()',
            lambda: f'{self.of("color", d)}.compareTo({self.of("color", d)})', lambda: f'{self.of("ints", d)}[{self.place(d)}]',
            lambda: f'{self.of("ints", d)}.length', lambda: f'{self.of("builder", d)}.length()',
            lambda: f'{self.of("builder", d)}.charAt({self.place(d)})', lambda: f'(0 + (Integer) {object_()})', lambda: f'((Node) {object_()}).size()',
            lambda: f'ask({self.random.randrange(4)}, {object_()})', lambda: f'ints({a()}, {a()}, {a()})',
            lambda: f'({self.of("bool", d)} ? {a()} : {a()})', lambda: f'({b()} > {b()} ? 1 : 0)',
            lambda: f'{self.choose("First", "Second", "Third")}.value', lambda: f'((Object[]) {object_()}).length',
        )()

    def an_long(self, d):
        if d <= 0:
            return self.random.choice(LONGS)
        a = lambda: self.of('long', d)
        return self.choose(
            lambda: f'({a()} {self.choose("+", "-", "*", "/", "%", "&", "|", "^")} {a()})', lambda: f'({a()} {self.choose("<<", ">>", ">>>")} {self.of("int", d)})',
            lambda: f'Math.{self.choose("max", "min")}({a()}, {a()})', lambda: f'Math.abs({a()})', lambda: f'(long) {self.of("int", d)}',
            lambda: f'{self.of("number", d)}.longValue()', lambda: f'({self.of("bool", d)} ? {a()} : {a()})', lambda: 'new Node(1, null).total++',
        )()

    def an_bool(self, d):
        if d <= 0:
            return self.choose(*OPTIONS, 'true', 'false')
        a, object_ = lambda: self.of('int', d), lambda: self.of('object', d)
        return self.choose(
            lambda: f'({a()} {self.choose("<", "<=", "==", "!=")} {a()})', lambda: f'({self.of("bool", d)} {self.choose("&&", "||", "^")} {self.of("bool", d)})',
            lambda: f'!{self.of("bool", d)}', lambda: f'{object_()}.equals({object_()})', lambda: f'{self.of("number", d)}.equals({object_()})',
            lambda: f'{self.of("truth", d)}.equals({object_()})', lambda: f'{self.of("text", d)}.equals({object_()})',
            lambda: f'{self.of("color", d)}.equals({object_()})', lambda: f'({object_()} == {object_()})', lambda: f'{self.of("text", d)}.isEmpty()',
            lambda: f'{self.of("text", d)}.startsWith({self.of("text", d)})', lambda: f'{self.of("text", d)}.endsWith({self.of("text", d)})',
            lambda: f'((Object) {object_()} instanceof {self.choose("String", "Integer", "Node", "int[]", "Object[]", "int[][]", "Named", "Throwable")})',
            lambda: f'{self.of("truth", d)}.booleanValue()', lambda: f'({self.of("long", d)} {self.choose("<", "==", ">=")} {self.of("long", d)})',
        )()

    def an_text(self, d):
        if d <= 0:
            return self.random.choice(TEXTS)
        text, a = lambda: self.of('text', d), lambda: self.of('int', d)
        return self.choose(
            lambda: f'({text()} + {self.of(self.choose("int", "long", "bool", "text"), d)})', lambda: f'{text()}.concat({text()})',
            lambda: f'{text()}.substring({self.place(d)})', lambda: f'{text()}.substring({self.place(d)}, {self.place(d)})', lambda: f'{text()}.toString()',
            lambda: f'String.valueOf({a()})', lambda: f'String.valueOf({self.of("long", d)})', lambda: f'String.valueOf({self.of("bool", d)})',
            lambda: f'String.valueOf((char) {a()})', lambda: f'String.valueOf({text()}.toCharArray())', lambda: f'new String({text()})',
            lambda: f'new String({text()}.toCharArray())', lambda: 'new String()', lambda: f'{self.of("builder", d)}.toString()',
            lambda: f'Integer.toString({a()})', lambda: f'{self.of("number", d)}.toString()', lambda: f'{self.of("truth", d)}.toString()',
            lambda: f'{self.of("color", d)}.name()', lambda: f'{self.of("color", d)}.toString()', lambda: f'((String) {self.of("object", d)})',
            lambda: f'shown({self.of("object", d)})', lambda: f'((Named) {self.of("object", d)}).twice()', lambda: f'({self.of("bool", d)} ? {text()} : null)',
            lambda: 'System.lineSeparator()', lambda: f'{self.of("thrown", d)}.getMessage()',
        )()

    def an_builder(self, d):
        if d <= 0:
            return self.choose('new StringBuilder()', 'new StringBuilder("xyz")', 'new StringBuilder(3)')
        builder = self.of('builder', d)
        return self.choose(
            lambda: f'{builder}.append({self.of(self.choose("int", "long", "bool", "text"), d)})', lambda: f'{builder}.append((char) {self.of("int", d)})',
            lambda: f'{builder}.reverse()', lambda: f'{builder}.deleteCharAt({self.place(d)})', lambda: f'new StringBuilder({self.of("text", d)})',
            lambda: f'new StringBuilder({self.choose("0", "16", "-1")})',
        )()

    def an_number(self, d):
        return self.choose(lambda: f'Integer.valueOf({self.of("int", d)})', lambda: f'((Integer) {self.of("object", d)})', lambda: f'Integer.valueOf({self.random.choice(INTS)})')()

    def an_truth(self, d):
        return self.choose(lambda: f'Boolean.valueOf({self.of("bool", d)})', lambda: 'Boolean.TRUE', lambda: 'Boolean.FALSE')()

    def an_color(self, d):
        return self.choose('Color.RED', 'Color.GREEN', 'Color.BLUE', 'Color.values()[' + self.random.choice(PLACES) + ']')

    def an_ints(self, d):
        if d <= 0:
            return self.choose('(new int[] {3, 4})', '(new int[0])', '((int[]) null)')
        return self.choose(
            lambda: f'(new int[{self.random.choice(LENGTHS)}])', lambda: f'(new int[] {{{self.of("int", d)}, {self.of("int", d)}}})',
            lambda: f'((int[]) {self.of("object", d)})', lambda: f'{self.of("ints", d)}.clone()',
        )()

    def an_thrown(self, d):
        kind = self.random.choice(RAISED)
        return self.choose(lambda: f'new {kind}()', lambda: f'new {kind}({self.of("text", d)})', lambda: f'((Throwable) {self.of("object", d)})')()

    def an_object(self, d):
        if d <= 0:
            plain = self.choose('null', '"0"', 'Integer.valueOf(0)', 'new Object()', 'Boolean.FALSE', 'new StringBuilder("0")', 'new int[] {1}')
            return f'((Object) {plain})'
        kind = self.choose('text', 'builder', 'number', 'truth', 'color', 'ints', 'thrown', 'grid', 'grid', 'node', 'node', 'array')
        return f'((Object) {getattr(self, "an_" + kind)(d)})'

    def an_node(self, d):
        return self.choose(lambda: f'new Node({self.of("int", d)}, {self.of("object", d)})', lambda: f'new Leaf({self.of("int", d)})')()

    def an_array(self, d):
        return self.choose(
            lambda: f'new {self.random.choice(ELEMENTS)}[{self.random.choice(LENGTHS)}]', lambda: f'new Object[] {{{self.of("object", d)}, {self.of("text", d)}}}',
            lambda: f'new String[] {{{self.of("text", d)}}}',
        )()

    def an_grid(self, _d):
        lengths = []
        for _ in range(self.random.randrange(2, 8)):
            lengths.append(self.random.choice(LARGE if '0' in lengths else LENGTHS))
        return f'new {self.random.choice(ELEMENTS)}{"".join(f"[{length}]" for length in lengths)}{"[]" * self.random.randrange(2)}'

    # ---- statements

    def block(self, count, depth):
        """Statements that leave no local variable of theirs in scope."""
        outer = {kind: list(names) for kind, names in self.locals.items()}
        lines = [line for _ in range(count) for line in self.statement(depth)]
        self.locals = outer
        return ['    ' + line for line in lines]

    def declared(self, kind, depth):
        types = {'int': 'int', 'long': 'long', 'bool': 'boolean', 'text': 'String', 'builder': 'StringBuilder', 'number': 'Integer', 'truth': 'Boolean',
                 'color': 'Color', 'ints': 'int[]', 'object': 'Object', 'thrown': 'Throwable'}
        value = self.of(kind, depth)
        self.fresh += 1
        name = f'v{self.fresh}'
        self.locals.setdefault(kind, []).append(name)
        return [f'{types[kind]} {name} = {value};']

    def statement(self, depth):
        kind = self.choose('int', 'long', 'bool', 'text', 'builder', 'number', 'truth', 'color', 'ints', 'object', 'thrown')
        ways = [
            lambda: self.declared(kind, depth), lambda: self.declared(kind, depth), lambda: self.printed(depth), lambda: self.printed(depth),
            lambda: self.assigned(depth), lambda: [f'held = {self.of("object", depth)};'], lambda: [f'{self.of("builder", depth)}.setLength({self.place(2)});'],
            lambda: [f'System.arraycopy({self.of("object", depth)}, {self.of("int", 1)}, {self.of("object", depth)}, {self.of("int", 1)}, {self.of("int", 1)});'],
            lambda: [f'copied(new Object[] {{{self.of("text", 2)}, {self.of("object", 2)}}}, {self.random.randrange(3)});'],
        ]
        if depth > 1:
            ways += [
                lambda: [f'if ({self.of("bool", depth)}) {{'] + self.block(2, depth - 1) + ['} else {'] + self.block(1, depth - 1) + ['}'],
                lambda: self.caught(depth),
                lambda: ['try {'] + self.block(1, depth - 1) + ['} finally {', '    count++;', '}'],
                lambda: [f'switch (0 + {self.of("int", depth)}) {{', 'case 0:', '    count += 2;', 'case 7:', '    count += 3;', '    break;', 'case 1000:', '    count--;', '    break;', 'default:', '    count += 5;', '}'],
                lambda: [f'switch ({self.of("color", depth)}) {{', 'case RED:', '    count += 2;', '    break;', 'default:', '    count += 5;', '}'],
                lambda: [f'switch ({self.of("text", depth)}) {{', 'case "0":', '    count += 2;', '    break;', 'case "banana":', '    count += 5;', '}'],
                lambda: self.loop(depth),
                lambda: [f'if ({self.of("bool", depth)}) {{', f'    throw new {self.choose("IllegalStateException", "Error", "ArithmeticException")}({self.of("text", depth)});', '}'],
            ]
        return self.random.choice(ways)()

    def caught(self, depth):
        self.fresh += 1
        e, kind = f'e{self.fresh}', self.choose('RuntimeException', 'ClassCastException', 'Error', 'Throwable')
        return ['try {'] + self.block(2, depth - 1) + [f'}} catch ({kind} {e}) {{', f'    System.out.println(shown({e}));'] + self.block(1, depth - 1) + ['}']

    def loop(self, depth):
        self.fresh += 1
        i = f'i{self.fresh}'
        return [f'for (int {i} = 0; {i} < {self.random.randrange(4)}; {i}++) {{', f'    count += {i};'] + self.block(1, depth - 1) + ['}']

    def assigned(self, depth):
        kinds = [kind for kind, names in self.locals.items() if names]
        if not kinds:
            return ['count++;']
        kind = self.random.choice(kinds)
        return [f'{self.random.choice(self.locals[kind])} = {self.of(kind, depth)};']

    def printed(self, depth):
        stream, word = self.choose('out', 'out', 'err'), self.choose('print', 'println')
        kind = self.choose('int', 'long', 'bool', 'text', 'object', 'object', 'chars', 'char')
        if kind == 'object':
            return [f'System.out.println(shown({self.of("object", depth)}));']
        if kind == 'chars':
            return [f'System.{stream}.{word}({self.of("text", depth)}.toCharArray());']
        if kind == 'char':
            return [f'System.{stream}.{word}((char) {self.of("int", depth)});']
        return [f'System.{stream}.{word}({self.of(kind, depth)});']

    # ---- the program

    def part(self, number):
        self.locals = {}
        lines = [line for _ in range(self.random.randrange(3, 8)) for line in self.guarded(3)]
        return [f'static void part{number}() {{'] + ['    ' + line for line in lines] + ['}', '']

    def guarded(self, depth):
        """A statement, mostly such that what it throws is shown and the next one is reached."""
        if self.random.random() < 0.4:
            return self.statement(depth)
        self.fresh += 1
        e = f'e{self.fresh}'
        return ['try {'] + self.block(1, depth) + [f'}} catch (Throwable {e}) {{', f'    System.out.println(shown({e}));', '}']

    def initialised(self, name):
        """A class whose initialiser may throw, or may ask for another one."""
        self.locals = {}
        return [f'static class {name} {{', f'    static int value = {self.of("int", 2)};', '', '    static {', f'        System.out.println("{name}");'] + [
            '    ' + line for line in self.block(2, 2)] + ['    }', '}', '']

    def program(self):
        parts = self.random.randrange(2, 5)
        lines = [f'static boolean {option};' for option in OPTIONS] + ['static int count;', 'static Object held;', '']
        for name in ('First', 'Second', 'Third'):
            lines += self.initialised(name)
        for number in range(parts):
            lines += self.part(number)
        lines += ['static void copied(Object[] from, int count) {', '    Object[] to = new String[2];', '    System.arraycopy(from, 0, to, 0, count);', '}', '']
        lines += ['public static void main(String[] arguments) {']
        for number in range(parts):
            if number + 1 < parts:
                lines += ['    try {', f'        part{number}();', '    } catch (Throwable e) {', '        System.out.println(shown(e));', '    }']
            else:
                lines += [f'    part{number}();']
        lines += ['    System.out.println(count + shown(held));']
        lines += ['    System.exit(count & 255);', '}'] if self.random.random() < 0.2 else ['}']
        body = '\n'.join('    ' + line if line else '' for line in lines)
        return f'public class {self.name} {{\n{body}\n{HELPERS}{METHODS}}}\n'


def drawn(seed, name):
    """The Java source of a program, whose main class has this name."""
    return Drawer(seed, name).program()


def model(name):
    """Its feature model."""
    return ''.join(f'option {option} {name} {option}\n' for option in OPTIONS)
