package varexj.lang;

/** The members of Integer that the machine doesn't have; those of objects are static methods of the object. */
public final class IntegerMembers {
    private IntegerMembers() {
    }

    // ---- texts

    /** {@code Integer.parseInt(text, radix)}. */
    public static int parseInt(String text, int radix) {
        if (text == null) {
            throw new NumberFormatException("null");
        }
        checkRadix(radix);
        return (int) parse(text, radix, 0x80000000L, text);
    }

    static void checkRadix(int radix) {
        if (radix < Character.MIN_RADIX) {
            throw new NumberFormatException("radix " + radix + " less than Character.MIN_RADIX");
        }
        if (radix > Character.MAX_RADIX) {
            throw new NumberFormatException("radix " + radix + " greater than Character.MAX_RADIX");
        }
    }

    /** The number that a text spells, where it is at least minus this bound and below the bound; the last is what the message shows. */
    private static long parse(String text, int radix, long bound, String shown) {
        int length = text.length();
        if (length == 0) {
            throw wrong(shown);
        }
        char first = text.charAt(0);
        int at = first == '-' || first == '+' ? 1 : 0;
        if (at == length) {
            throw wrong(shown);
        }
        long sum = 0;
        for (; at < length; at++) {
            int digit = Character.digit(text.charAt(at), radix);
            sum = sum * radix + digit;
            if (digit < 0 || sum > bound) {
                throw wrong(shown);
            }
        }
        if (first == '-') {
            return -sum;
        }
        if (sum == bound) {
            throw wrong(shown);
        }
        return sum;
    }

    static NumberFormatException wrong(String text) {
        return new NumberFormatException("For input string: \"" + text + "\"");
    }

    /** {@code Integer.valueOf(text)}. */
    public static Integer valueOf(String text) {
        return Integer.valueOf(parseInt(text, 10));
    }

    /** {@code Integer.valueOf(text, radix)}. */
    public static Integer valueOf(String text, int radix) {
        return Integer.valueOf(parseInt(text, radix));
    }

    /** {@code Integer.parseUnsignedInt(text)}. */
    public static int parseUnsignedInt(String text) {
        return parseUnsignedInt(text, 10);
    }

    /** {@code Integer.parseUnsignedInt(text, radix)}. */
    public static int parseUnsignedInt(String text, int radix) {
        if (text == null) {
            throw new NumberFormatException("null");
        }
        if (text.isEmpty()) {
            throw wrong(text);
        }
        if (text.charAt(0) == '-') {
            throw new NumberFormatException("Illegal leading minus sign on unsigned string " + text + ".");
        }
        checkRadix(radix);
        return (int) parse(text, radix, 0x100000000L, text);
    }

    /** {@code Integer.decode(text)}. */
    public static Integer decode(String text) {
        Digits.Prefix prefix = Digits.prefix(text);
        return Integer.valueOf(parseInt(prefix.signed(), prefix.radix));
    }

    /** {@code Integer.getInteger(key)}. */
    public static Integer getInteger(String key) {
        return getInteger(key, null);
    }

    /** {@code Integer.getInteger(key, otherwise)}. */
    public static Integer getInteger(String key, int otherwise) {
        Integer found = getInteger(key, null);
        return found == null ? Integer.valueOf(otherwise) : found;
    }

    /** {@code Integer.getInteger(key, otherwise)}. */
    public static Integer getInteger(String key, Integer otherwise) {
        String found = key == null || key.isEmpty() ? null : Settings.property(key);
        if (found == null) {
            return otherwise;
        }
        try {
            return decode(found);
        } catch (NumberFormatException e) {
            return otherwise;
        }
    }

    /** {@code Integer.toString(number, radix)}. */
    public static String toString(int number, int radix) {
        return Digits.toString(number, radix);
    }

    /** {@code Integer.toHexString(number)}. */
    public static String toHexString(int number) {
        return Digits.ofBits(number & 0xFFFFFFFFL, 4);
    }

    /** {@code Integer.toOctalString(number)}. */
    public static String toOctalString(int number) {
        return Digits.ofBits(number & 0xFFFFFFFFL, 3);
    }

    /** {@code Integer.toBinaryString(number)}. */
    public static String toBinaryString(int number) {
        return Digits.ofBits(number & 0xFFFFFFFFL, 1);
    }

    /** {@code Integer.toUnsignedString(number)}. */
    public static String toUnsignedString(int number) {
        return String.valueOf(number & 0xFFFFFFFFL);
    }

    /** {@code Integer.toUnsignedString(number, radix)}. */
    public static String toUnsignedString(int number, int radix) {
        return Digits.toString(number & 0xFFFFFFFFL, radix);
    }

    // ---- numbers

    /** {@code number.byteValue()}. */
    public static byte byteValue(Integer number) {
        return (byte) number.intValue();
    }

    /** {@code number.shortValue()}. */
    public static short shortValue(Integer number) {
        return (short) number.intValue();
    }

    /** {@code Integer.hashCode(number)}. */
    public static int hashCode(int number) {
        return number;
    }

    /** {@code Integer.max(left, right)}. */
    public static int max(int left, int right) {
        return Math.max(left, right);
    }

    /** {@code Integer.min(left, right)}. */
    public static int min(int left, int right) {
        return Math.min(left, right);
    }

    /** {@code Integer.sum(left, right)}. */
    public static int sum(int left, int right) {
        return left + right;
    }

    /** {@code Integer.signum(number)}. */
    public static int signum(int number) {
        return number >> 31 | -number >>> 31;
    }

    /** {@code Integer.compareUnsigned(left, right)}. */
    public static int compareUnsigned(int left, int right) {
        return Integer.compare(left ^ 0x80000000, right ^ 0x80000000);
    }

    /** {@code Integer.toUnsignedLong(number)}. */
    public static long toUnsignedLong(int number) {
        return number & 0xFFFFFFFFL;
    }

    /** {@code Integer.divideUnsigned(dividend, divisor)}. */
    public static int divideUnsigned(int dividend, int divisor) {
        return (int) ((dividend & 0xFFFFFFFFL) / (divisor & 0xFFFFFFFFL));
    }

    /** {@code Integer.remainderUnsigned(dividend, divisor)}. */
    public static int remainderUnsigned(int dividend, int divisor) {
        return (int) ((dividend & 0xFFFFFFFFL) % (divisor & 0xFFFFFFFFL));
    }

    // ---- bits

    /** {@code Integer.bitCount(number)}. */
    public static int bitCount(int number) {
        int pairs = number - (number >>> 1 & 0x55555555);
        int fours = (pairs & 0x33333333) + (pairs >>> 2 & 0x33333333);
        return (fours + (fours >>> 4) & 0x0F0F0F0F) * 0x01010101 >>> 24;
    }

    /** {@code Integer.highestOneBit(number)}. */
    public static int highestOneBit(int number) {
        return number & 0x80000000 >>> numberOfLeadingZeros(number);
    }

    /** {@code Integer.lowestOneBit(number)}. */
    public static int lowestOneBit(int number) {
        return number & -number;
    }

    /** {@code Integer.numberOfLeadingZeros(number)}. */
    public static int numberOfLeadingZeros(int number) {
        int bits = number | number >>> 1;
        bits |= bits >>> 2;
        bits |= bits >>> 4;
        bits |= bits >>> 8;
        bits |= bits >>> 16;
        return 32 - bitCount(bits);
    }

    /** {@code Integer.numberOfTrailingZeros(number)}. */
    public static int numberOfTrailingZeros(int number) {
        return bitCount(~number & number - 1);
    }

    /** {@code Integer.rotateLeft(number, distance)}. */
    public static int rotateLeft(int number, int distance) {
        return number << distance | number >>> -distance;
    }

    /** {@code Integer.rotateRight(number, distance)}. */
    public static int rotateRight(int number, int distance) {
        return number >>> distance | number << -distance;
    }

    /** {@code Integer.reverse(number)}. */
    public static int reverse(int number) {
        int bits = (number & 0x55555555) << 1 | number >>> 1 & 0x55555555;
        bits = (bits & 0x33333333) << 2 | bits >>> 2 & 0x33333333;
        bits = (bits & 0x0F0F0F0F) << 4 | bits >>> 4 & 0x0F0F0F0F;
        return reverseBytes(bits);
    }

    /** {@code Integer.reverseBytes(number)}. */
    public static int reverseBytes(int number) {
        return number << 24 | (number & 0xFF00) << 8 | number >>> 8 & 0xFF00 | number >>> 24;
    }
}
