package java.lang;

import varexj.lang.Digits;
import varexj.lang.IntegerMembers;
import varexj.lang.Settings;

/** A long as an object. */
public final class Long extends Number implements Comparable<Long> {
    public static final long MIN_VALUE = 0x8000000000000000L;
    public static final long MAX_VALUE = 0x7FFFFFFFFFFFFFFFL;
    public static final int SIZE = 64;
    public static final int BYTES = 8;

    private static final Long[] CACHE = new Long[256];

    private final long value;

    public Long(long value) {
        this.value = value;
    }

    public Long(String text) {
        this.value = parseLong(text, 10);
    }

    /** One object for each value from -128 to 127, made at its first use. */
    public static Long valueOf(long value) {
        if (value < -128 || value > 127) {
            return new Long(value);
        }
        int at = (int) value + 128;
        Long kept = CACHE[at];
        if (kept == null) {
            kept = new Long(value);
            CACHE[at] = kept;
        }
        return kept;
    }

    public static Long valueOf(String text) {
        return valueOf(parseLong(text, 10));
    }

    public static Long valueOf(String text, int radix) {
        return valueOf(parseLong(text, radix));
    }

    // ---- texts

    public static long parseLong(String text) {
        return parseLong(text, 10);
    }

    public static long parseLong(String text, int radix) {
        if (text == null) {
            throw new NumberFormatException("null");
        }
        checkRadix(radix);
        int length = text.length();
        char first = length == 0 ? '-' : text.charAt(0);
        int at = first == '-' || first == '+' ? 1 : 0;
        if (at >= length) {
            throw wrong(text);
        }
        long least = first == '-' ? MIN_VALUE : -MAX_VALUE;
        long leastTenth = least / radix;
        long sum = 0;
        for (; at < length; at++) {
            int digit = Character.digit(text.charAt(at), radix);
            if (digit < 0 || sum < leastTenth) {
                throw wrong(text);
            }
            sum *= radix;
            if (sum < least + digit) {
                throw wrong(text);
            }
            sum -= digit;
        }
        return first == '-' ? sum : -sum;
    }

    private static void checkRadix(int radix) {
        if (radix < Character.MIN_RADIX) {
            throw new NumberFormatException("radix " + radix + " less than Character.MIN_RADIX");
        }
        if (radix > Character.MAX_RADIX) {
            throw new NumberFormatException("radix " + radix + " greater than Character.MAX_RADIX");
        }
    }

    private static NumberFormatException wrong(String text) {
        return new NumberFormatException("For input string: \"" + text + "\"");
    }

    public static long parseUnsignedLong(String text) {
        return parseUnsignedLong(text, 10);
    }

    public static long parseUnsignedLong(String text, int radix) {
        if (text == null) {
            throw new NumberFormatException("null");
        }
        if (text.isEmpty()) {
            throw wrong(text);
        }
        if (text.charAt(0) == '-') {
            throw new NumberFormatException("Illegal leading minus sign on unsigned string " + text + ".");
        }
        checkRadix(radix);
        int length = text.length();
        int at = text.charAt(0) == '+' ? 1 : 0;
        if (at == length) {
            throw wrong(text);
        }
        long most = divideUnsigned(-1L, radix);
        long sum = 0;
        for (; at < length; at++) {
            int digit = Character.digit(text.charAt(at), radix);
            if (digit < 0) {
                throw wrong(text);
            }
            long next = sum * radix + digit;
            if (compareUnsigned(sum, most) > 0 || compareUnsigned(next, digit) < 0) {
                throw new NumberFormatException("String value " + text + " exceeds range of unsigned long.");
            }
            sum = next;
        }
        return sum;
    }

    public static Long decode(String text) {
        Digits.Prefix prefix = Digits.prefix(text);
        return valueOf(parseLong(prefix.signed(), prefix.radix));
    }

    public static Long getLong(String key) {
        return getLong(key, null);
    }

    public static Long getLong(String key, long otherwise) {
        Long found = getLong(key, null);
        return found == null ? valueOf(otherwise) : found;
    }

    public static Long getLong(String key, Long otherwise) {
        String found = key == null || key.isEmpty() ? null : Settings.property(key);
        if (found == null) {
            return otherwise;
        }
        try {
            return decode(found);
        } catch (NumberFormatException e) {
            return otherwise;
        }
    }

    public static String toString(long number) {
        return String.valueOf(number);
    }

    @Override
    public String toString() {
        return String.valueOf(value);
    }

    public static String toString(long number, int radix) {
        return Digits.toString(number, radix);
    }

    public static String toHexString(long number) {
        return Digits.ofBits(number, 4);
    }

    public static String toOctalString(long number) {
        return Digits.ofBits(number, 3);
    }

    public static String toBinaryString(long number) {
        return Digits.ofBits(number, 1);
    }

    public static String toUnsignedString(long number) {
        return Digits.toUnsignedString(number, 10);
    }

    public static String toUnsignedString(long number, int radix) {
        return Digits.toUnsignedString(number, radix);
    }

    // ---- numbers

    public byte byteValue() {
        return (byte) value;
    }

    public short shortValue() {
        return (short) value;
    }

    @Override
    public int intValue() {
        return (int) value;
    }

    @Override
    public long longValue() {
        return value;
    }

    public static int hashCode(long number) {
        return (int) (number ^ number >>> 32);
    }

    @Override
    public int hashCode() {
        return (int) (value ^ value >>> 32);
    }

    @Override
    public boolean equals(Object other) {
        return other instanceof Long && value == ((Long) other).value;
    }

    @Override
    public int compareTo(Long other) {
        return compare(value, other.value);
    }

    public static int compare(long left, long right) {
        return left < right ? -1 : left == right ? 0 : 1;
    }

    public static int compareUnsigned(long left, long right) {
        return compare(left ^ MIN_VALUE, right ^ MIN_VALUE);
    }

    public static long divideUnsigned(long dividend, long divisor) {
        if (divisor < 0) {
            return compareUnsigned(dividend, divisor) < 0 ? 0 : 1;
        }
        if (dividend >= 0) {
            return dividend / divisor;
        }
        long quotient = (dividend >>> 1) / divisor << 1;
        return compareUnsigned(dividend - quotient * divisor, divisor) < 0 ? quotient : quotient + 1;
    }

    public static long remainderUnsigned(long dividend, long divisor) {
        return dividend - divideUnsigned(dividend, divisor) * divisor;
    }

    public static long max(long left, long right) {
        return Math.max(left, right);
    }

    public static long min(long left, long right) {
        return Math.min(left, right);
    }

    public static long sum(long left, long right) {
        return left + right;
    }

    public static int signum(long number) {
        return (int) (number >> 63 | -number >>> 63);
    }

    // ---- bits

    public static int bitCount(long number) {
        return IntegerMembers.bitCount((int) number) + IntegerMembers.bitCount((int) (number >>> 32));
    }

    public static int numberOfLeadingZeros(long number) {
        int high = (int) (number >>> 32);
        return high == 0 ? 32 + IntegerMembers.numberOfLeadingZeros((int) number) : IntegerMembers.numberOfLeadingZeros(high);
    }

    public static int numberOfTrailingZeros(long number) {
        return bitCount(~number & number - 1);
    }

    public static long highestOneBit(long number) {
        return number & MIN_VALUE >>> numberOfLeadingZeros(number);
    }

    public static long lowestOneBit(long number) {
        return number & -number;
    }

    public static long rotateLeft(long number, int distance) {
        return number << distance | number >>> -distance;
    }

    public static long rotateRight(long number, int distance) {
        return number >>> distance | number << -distance;
    }

    public static long reverse(long number) {
        return (long) IntegerMembers.reverse((int) number) << 32 | IntegerMembers.reverse((int) (number >>> 32)) & 0xFFFFFFFFL;
    }

    public static long reverseBytes(long number) {
        return (long) IntegerMembers.reverseBytes((int) number) << 32 | IntegerMembers.reverseBytes((int) (number >>> 32)) & 0xFFFFFFFFL;
    }
}
