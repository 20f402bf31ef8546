abstract class Expression {
    abstract int value();

    abstract String text();

    Expression simplified() {
        return this;
    }

    boolean is(int number) {
        return false;
    }

    static final class Constant extends Expression {
        private final int number;

        Constant(int number) {
            this.number = number;
        }

        int value() {
            return number;
        }

        String text() {
            return Integer.toString(number);
        }

        boolean is(int other) {
            return number == other;
        }
    }

    static final class Variable extends Expression {
        private final char name;

        Variable(char name) {
            this.name = name;
        }

        int value() {
            if (!Options.VARIABLES) {
                throw new IllegalStateException("variable " + name);
            }
            return name - 'a' + 1;
        }

        String text() {
            return String.valueOf(name);
        }
    }

    static final class Binary extends Expression {
        private final char sign;
        private final Expression left;
        private final Expression right;

        Binary(char sign, Expression left, Expression right) {
            this.sign = sign;
            this.left = left;
            this.right = right;
        }

        int value() {
            int a = left.value();
            int b = right.value();
            switch (sign) {
                case '+':
                    return a + b;
                case '-':
                    return a - b;
                case '*':
                    return a * b;
                case '/':
                    return a / b;
                case '%':
                    return a % b;
                default:
                    throw new UnsupportedOperationException(String.valueOf(sign));
            }
        }

        String text() {
            if (Options.POSTFIX) {
                return left.text() + " " + right.text() + " " + sign;
            }
            return "(" + left.text() + sign + right.text() + ")";
        }

        @Override
        Expression simplified() {
            Expression a = left.simplified();
            Expression b = right.simplified();
            if (sign == '*' && (a.is(0) || b.is(0))) {
                return new Constant(0);
            }
            if (sign == '+' && a.is(0) || sign == '*' && a.is(1)) {
                return b;
            }
            if ((sign == '+' || sign == '-') && b.is(0) || (sign == '*' || sign == '/') && b.is(1)) {
                return a;
            }
            return new Binary(sign, a, b);
        }
    }
}
