/** Reads sums of products by descent. */
final class Parser {
    static final class Fault extends Exception {
        final int place;

        Fault(String message, int place) {
            super(message);
            this.place = place;
        }
    }

    private final String text;
    private int at;

    Parser(String text) {
        this.text = text;
    }

    static Expression parse(String text) throws Fault {
        Parser parser = new Parser(text);
        Expression sum = parser.sum();
        if (parser.at < text.length() && !Options.LENIENT) {
            throw new Fault("rest", parser.at);
        }
        return sum;
    }

    private char peek() {
        return at < text.length() ? text.charAt(at) : 0;
    }

    private Expression sum() throws Fault {
        Expression left = product();
        while (peek() == '+' || peek() == '-') {
            char sign = text.charAt(at++);
            left = new Expression.Binary(sign, left, product());
        }
        return left;
    }

    private Expression product() throws Fault {
        Expression left = factor();
        while (peek() == '*' || Options.DIVISION && peek() == '/' || Options.MODULO && peek() == '%') {
            char sign = text.charAt(at++);
            left = new Expression.Binary(sign, left, factor());
        }
        return left;
    }

    private Expression factor() throws Fault {
        char c = peek();
        if (c >= '0' && c <= '9') {
            int number = 0;
            while (peek() >= '0' && peek() <= '9') {
                number = number * 10 + text.charAt(at++) - '0';
            }
            return new Expression.Constant(number);
        }
        if (c >= 'a' && c <= 'z') {
            at++;
            return new Expression.Variable(c);
        }
        if (c == '(') {
            at++;
            Expression inner = sum();
            if (peek() != ')') {
                throw new Fault("no closing bracket", at);
            }
            at++;
            return inner;
        }
        throw new Fault(c == 0 ? "end" : "unexpected " + c, at);
    }
}
