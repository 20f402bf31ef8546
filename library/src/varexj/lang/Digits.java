package varexj.lang;

/** How numbers are written and read in other radixes than the machine's ten. */
public final class Digits {
    private static final String DIGITS = "0123456789abcdefghijklmnopqrstuvwxyz";

    private Digits() {
    }

    /** A number as the one without a sign in digits of so many bits, from 1 to 4. */
    public static String ofBits(long number, int bits) {
        int mask = (1 << bits) - 1;
        char[] units = new char[64];
        int at = 64;
        long rest = number;
        do {
            at--;
            units[at] = DIGITS.charAt((int) rest & mask);
            rest >>>= bits;
        } while (rest != 0);
        return part(units, at);
    }

    /** A number in a radix; one out of range counts as ten. */
    public static String toString(long number, int radix) {
        if (radix == 10 || radix < Character.MIN_RADIX || radix > Character.MAX_RADIX) {
            return String.valueOf(number);
        }
        char[] units = new char[65];
        int at = 65;
        long rest = number < 0 ? number : -number;
        do {
            at--;
            units[at] = DIGITS.charAt((int) -(rest % radix));
            rest /= radix;
        } while (rest != 0);
        if (number < 0) {
            at--;
            units[at] = '-';
        }
        return part(units, at);
    }

    private static String part(char[] units, int begin) {
        char[] part = new char[units.length - begin];
        System.arraycopy(units, begin, part, 0, part.length);
        return new String(part);
    }

    /** A number without a sign in a radix. */
    public static String toUnsignedString(long number, int radix) {
        if (number >= 0) {
            return toString(number, radix);
        }
        int base = radix < Character.MIN_RADIX || radix > Character.MAX_RADIX ? 10 : radix;
        long quotient = Long.divideUnsigned(number, base);
        return toString(quotient, base).concat(toString(number - quotient * base, base));
    }

    /** What stands in front of a number: whether it is negative, its radix, and where its digits begin, for {@code decode}. */
    public static final class Prefix {
        /** Whether a minus sign stands in front. */
        public final boolean negative;
        /** The radix, 8, 10 or 16. */
        public final int radix;
        /** The digits alone. */
        public final String digits;

        /** Reads the prefix of a text that isn't empty. */
        public Prefix(String text) {
            char first = text.charAt(0);
            negative = first == '-';
            String rest = negative || first == '+' ? text.substring(1) : text;
            if (rest.startsWith("0x") || rest.startsWith("0X")) {
                radix = 16;
                digits = rest.substring(2);
            } else if (rest.startsWith("#")) {
                radix = 16;
                digits = rest.substring(1);
            } else if (rest.startsWith("0") && rest.length() > 1) {
                radix = 8;
                digits = rest.substring(1);
            } else {
                radix = 10;
                digits = rest;
            }
            if (digits.startsWith("-") || digits.startsWith("+")) {
                throw new NumberFormatException("Sign character in wrong position");
            }
        }

        /** The number with its sign. */
        public String signed() {
            return negative ? "-".concat(digits) : digits;
        }
    }

    /** The prefix of a text. */
    public static Prefix prefix(String text) {
        if (text.isEmpty()) {
            throw new NumberFormatException("Zero length string");
        }
        return new Prefix(text);
    }
}
