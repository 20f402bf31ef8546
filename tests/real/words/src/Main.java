/** A language of formulas: units become words, words a tree, the tree a number. */
public class Main {
    static boolean NAMES;
    static boolean HEXADECIMAL;
    static boolean POWERS;
    static boolean CHECKED;
    static boolean TRACED;

    /** What can't be read. */
    static class Unreadable extends Exception {
        final int place;

        Unreadable(String message, int place) {
            super(message);
            this.place = place;
        }
    }

    interface Node {
        long value() throws Unreadable;
    }

    static class Reader implements AutoCloseable {
        private final StringBuffer text;
        private int at;

        class Constant implements Node {
            private final Long number;
            private final int place = at;

            Constant(Long number) {
                this.number = number;
            }

            @Override
            public long value() {
                return number;
            }

            @Override
            public String toString() {
                return number + "@" + place;
            }
        }

        class Two implements Node {
            private final Character sign;
            private final Node left;
            private final Node right;

            Two(Character sign, Node left, Node right) {
                this.sign = sign;
                this.left = left;
                this.right = right;
            }

            @Override
            public long value() throws Unreadable {
                long a = left.value();
                long b = right.value();
                switch (sign) {
                    case '+':
                        return checked(a + b, (a ^ b) >= 0 && (a ^ a + b) < 0);
                    case '-':
                        return a - b;
                    case '*':
                        return checked(a * b, a != 0 && (a * b) / a != b);
                    case '/':
                        return a / b;
                    default:
                        long product = 1;
                        for (long left = b; left > 0; left--) {
                            product *= a;
                        }
                        return product;
                }
            }

            private long checked(long number, boolean wrong) throws Unreadable {
                if (CHECKED && wrong) {
                    throw new Unreadable("overflow", text.length());
                }
                return number;
            }

            @Override
            public String toString() {
                return new StringBuffer("(").append(left).append(sign).append((Object) right).append(')').toString();
            }
        }

        Reader(String text) {
            this.text = new StringBuffer(text);
            this.text.append('\n');
        }

        private char next() {
            while (Character.isSpaceChar(text.charAt(at))) {
                at++;
            }
            return text.charAt(at);
        }

        Node sum() throws Unreadable {
            Node left = product();
            for (char sign = next(); sign == '+' || sign == '-'; sign = next()) {
                at++;
                left = this.new Two(sign, left, product());
            }
            return left;
        }

        Node product() throws Unreadable {
            Node left = power();
            for (char sign = next(); sign == '*' || sign == '/'; sign = next()) {
                at++;
                left = this.new Two(sign, left, power());
            }
            return left;
        }

        Node power() throws Unreadable {
            Node base = one();
            if (POWERS && next() == '^') {
                at++;
                return new Two('^', base, power());
            }
            return base;
        }

        Node one() throws Unreadable {
            char first = next();
            int begin = at;
            if (first == '(') {
                at++;
                Node inner = sum();
                if (next() != ')') {
                    throw new Unreadable("no closing sign", at);
                }
                at++;
                return inner;
            }
            while (Character.isLetterOrDigit(text.charAt(at))) {
                at++;
            }
            String word = text.substring(begin, at);
            if (word.isEmpty()) {
                throw new Unreadable("no word", at);
            }
            if (NAMES && Character.isJavaIdentifierStart(first)) {
                return new Constant((long) word.hashCode() % 100);
            }
            try {
                return new Constant(HEXADECIMAL ? Long.valueOf(word, 16) : Long.valueOf(word));
            } catch (NumberFormatException e) {
                throw new Unreadable("no number " + word, begin);
            }
        }

        Node whole() throws Unreadable {
            Node read = sum();
            if (at < text.length() - 1) {
                throw new Unreadable("more", at);
            }
            return read;
        }

        @Override
        public void close() {
            if (TRACED) {
                System.out.println("  " + text.deleteCharAt(text.length() - 1).reverse());
            }
        }
    }

    static long all;

    static void read(String formula) {
        try (Reader reader = new Reader(formula)) {
            Node tree = reader.whole();
            long value = tree.value();
            all = all * 7 + value;
            System.out.println((TRACED ? tree + " " : "") + formula + " = " + value);
        } catch (Unreadable e) {
            System.out.println(formula + ": " + e.getMessage() + " at " + e.place);
        }
    }

    public static void main(String[] args) {
        read("1 + 2 * 3");
        read("(10 - ff) * 2");
        read("2 ^ 3 ^ 2");
        read("alpha * 3 + b\u00e9ta");
        read("99999999999 * 99999999999");
        read("7 / (3 - 1");
        Reader outer = new Reader("12");
        Reader.Constant made = outer.new Constant(NAMES ? 5L : 6L);
        System.out.println(made.value() + " " + made);
        outer = POWERS ? outer : null;
        System.out.println(outer.new Constant(1L));
        read("1 / (" + (CHECKED ? "2 - 2" : "2 - 1") + ")");
        System.out.println(all);
    }
}
