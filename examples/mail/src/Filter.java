/** A step on the way of a message. A filter may change it, or keep it from going on. */
abstract class Filter {
    private final String name;

    Filter(String name) {
        this.name = name;
    }

    abstract boolean passes(Message message);

    final boolean apply(Message message) {
        boolean passed = passes(message);
        if (Options.LOG) {
            System.out.println(name + (passed ? " ok" : " stops"));
        }
        return passed;
    }

    static final class Sign extends Filter {
        Sign() {
            super("sign");
        }

        boolean passes(Message message) {
            message.seal = message.sum();
            return true;
        }
    }

    static final class Verify extends Filter {
        Verify() {
            super("verify");
        }

        boolean passes(Message message) {
            if (message.seal >= 0 && message.seal != message.sum()) {
                throw new IllegalStateException("broken seal of " + message.from);
            }
            return true;
        }
    }

    /** Runs of one letter become the letter and a number. */
    static final class Zip extends Filter {
        Zip() {
            super("zip");
        }

        boolean passes(Message message) {
            StringBuilder out = new StringBuilder();
            String text = message.text;
            int at = 0;
            while (at < text.length()) {
                int end = at;
                while (end < text.length() && text.charAt(end) == text.charAt(at)) {
                    end++;
                }
                out.append(text.charAt(at));
                if (end - at > 1) {
                    out.append(end - at);
                }
                at = end;
            }
            message.text = out.toString();
            message.zipped = true;
            return true;
        }
    }

    static final class Encrypt extends Filter {
        private final boolean back;

        Encrypt(boolean back) {
            super(back ? "decrypt" : "encrypt");
            this.back = back;
        }

        boolean passes(Message message) {
            if (back && !message.encrypted) {
                return true;
            }
            message.text = new StringBuilder(message.text).reverse().toString();
            message.encrypted = !back;
            return true;
        }
    }

    static final class Spam extends Filter {
        Spam() {
            super("filter");
        }

        boolean passes(Message message) {
            return message.text.indexOf("!!") < 0;
        }
    }
}
