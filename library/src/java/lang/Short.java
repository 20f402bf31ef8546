package java.lang;

import varexj.lang.IntegerMembers;

/** A short as an object. */
public final class Short extends Number implements Comparable<Short> {
    public static final short MIN_VALUE = -32768;
    public static final short MAX_VALUE = 32767;
    public static final int SIZE = 16;
    public static final int BYTES = 2;

    private static final Short[] CACHE = new Short[256];

    private final short value;

    public Short(short value) {
        this.value = value;
    }

    public Short(String text) {
        this.value = parseShort(text, 10);
    }

    /** One object for each value from -128 to 127, made at its first use. */
    public static Short valueOf(short value) {
        if (value < -128 || value > 127) {
            return new Short(value);
        }
        int at = value + 128;
        Short kept = CACHE[at];
        if (kept == null) {
            kept = new Short(value);
            CACHE[at] = kept;
        }
        return kept;
    }

    public static Short valueOf(String text) {
        return valueOf(parseShort(text, 10));
    }

    public static Short valueOf(String text, int radix) {
        return valueOf(parseShort(text, radix));
    }

    public static short parseShort(String text) {
        return parseShort(text, 10);
    }

    public static short parseShort(String text, int radix) {
        int number = IntegerMembers.parseInt(text, radix);
        if (number < MIN_VALUE || number > MAX_VALUE) {
            throw new NumberFormatException("Value out of range. Value:\"" + text + "\" Radix:" + radix);
        }
        return (short) number;
    }

    public static Short decode(String text) {
        int number = IntegerMembers.decode(text).intValue();
        if (number < MIN_VALUE || number > MAX_VALUE) {
            throw new NumberFormatException("Value " + number + " out of range from input " + text);
        }
        return valueOf((short) number);
    }

    public byte byteValue() {
        return (byte) value;
    }

    public short shortValue() {
        return value;
    }

    @Override
    public int intValue() {
        return value;
    }

    @Override
    public long longValue() {
        return value;
    }

    public static String toString(short value) {
        return String.valueOf((int) value);
    }

    @Override
    public String toString() {
        return String.valueOf((int) value);
    }

    public static int hashCode(short value) {
        return value;
    }

    @Override
    public int hashCode() {
        return value;
    }

    @Override
    public boolean equals(Object other) {
        return other instanceof Short && value == ((Short) other).value;
    }

    @Override
    public int compareTo(Short other) {
        return value - other.value;
    }

    public static int compare(short left, short right) {
        return left - right;
    }

    public static int compareUnsigned(short left, short right) {
        return toUnsignedInt(left) - toUnsignedInt(right);
    }

    public static int toUnsignedInt(short value) {
        return value & 0xFFFF;
    }

    public static long toUnsignedLong(short value) {
        return value & 0xFFFFL;
    }

    public static short reverseBytes(short value) {
        return (short) (value << 8 | value >> 8 & 0xFF);
    }
}
