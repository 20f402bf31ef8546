package varexj.lang;

/** The members of Number that the machine doesn't have, as static methods of the number. */
public final class NumberMembers {
    private NumberMembers() {
    }

    /** {@code number.byteValue()}, where the class doesn't say otherwise. */
    public static byte byteValue(Number number) {
        return (byte) number.intValue();
    }

    /** {@code number.shortValue()}, where the class doesn't say otherwise. */
    public static short shortValue(Number number) {
        return (short) number.intValue();
    }
}
