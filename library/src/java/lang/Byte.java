package java.lang;

import varexj.lang.IntegerMembers;

/** A byte as an object. */
public final class Byte extends Number implements Comparable<Byte> {
    public static final byte MIN_VALUE = -128;
    public static final byte MAX_VALUE = 127;
    public static final int SIZE = 8;
    public static final int BYTES = 1;

    private static final Byte[] CACHE = new Byte[256];

    private final byte value;

    public Byte(byte value) {
        this.value = value;
    }

    public Byte(String text) {
        this.value = parseByte(text, 10);
    }

    /** One object for each value from -128 to 127, made at its first use. */
    public static Byte valueOf(byte value) {
        if (value < -128 || value > 127) {
            return new Byte(value);
        }
        int at = value + 128;
        Byte kept = CACHE[at];
        if (kept == null) {
            kept = new Byte(value);
            CACHE[at] = kept;
        }
        return kept;
    }

    public static Byte valueOf(String text) {
        return valueOf(parseByte(text, 10));
    }

    public static Byte valueOf(String text, int radix) {
        return valueOf(parseByte(text, radix));
    }

    public static byte parseByte(String text) {
        return parseByte(text, 10);
    }

    public static byte parseByte(String text, int radix) {
        int number = IntegerMembers.parseInt(text, radix);
        if (number < MIN_VALUE || number > MAX_VALUE) {
            throw new NumberFormatException("Value out of range. Value:\"" + text + "\" Radix:" + radix);
        }
        return (byte) number;
    }

    public static Byte decode(String text) {
        int number = IntegerMembers.decode(text).intValue();
        if (number < MIN_VALUE || number > MAX_VALUE) {
            throw new NumberFormatException("Value " + number + " out of range from input " + text);
        }
        return valueOf((byte) number);
    }

    public byte byteValue() {
        return (byte) value;
    }

    public short shortValue() {
        return value;
    }

    @Override
    public int intValue() {
        return value;
    }

    @Override
    public long longValue() {
        return value;
    }

    public static String toString(byte value) {
        return String.valueOf((int) value);
    }

    @Override
    public String toString() {
        return String.valueOf((int) value);
    }

    public static int hashCode(byte value) {
        return value;
    }

    @Override
    public int hashCode() {
        return value;
    }

    @Override
    public boolean equals(Object other) {
        return other instanceof Byte && value == ((Byte) other).value;
    }

    @Override
    public int compareTo(Byte other) {
        return value - other.value;
    }

    public static int compare(byte left, byte right) {
        return left - right;
    }

    public static int compareUnsigned(byte left, byte right) {
        return toUnsignedInt(left) - toUnsignedInt(right);
    }

    public static int toUnsignedInt(byte value) {
        return value & 0xFF;
    }

    public static long toUnsignedLong(byte value) {
        return value & 0xFFL;
    }
}
