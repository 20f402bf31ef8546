package varexj.lang;

/** The members of Boolean that the machine doesn't have; those of objects are static methods of the object. */
public final class BooleanMembers {
    private BooleanMembers() {
    }

    /** {@code Boolean.parseBoolean(text)}. */
    public static boolean parseBoolean(String text) {
        return text != null && StringMembers.equalsIgnoreCase("true", text);
    }

    /** {@code Boolean.valueOf(text)}. */
    public static Boolean valueOf(String text) {
        return Boolean.valueOf(parseBoolean(text));
    }

    /** {@code Boolean.getBoolean(key)}. */
    public static boolean getBoolean(String key) {
        return key != null && !key.isEmpty() && parseBoolean(Settings.property(key));
    }

    /** {@code Boolean.toString(value)}. */
    public static String toString(boolean value) {
        return String.valueOf(value);
    }

    /** {@code value.hashCode()}. */
    public static int hashCode(Boolean value) {
        return hashCode(value.booleanValue());
    }

    /** {@code Boolean.hashCode(value)}. */
    public static int hashCode(boolean value) {
        return value ? 1231 : 1237;
    }

    /** {@code Boolean.compare(left, right)}. */
    public static int compare(boolean left, boolean right) {
        return left == right ? 0 : left ? 1 : -1;
    }

    /** {@code Boolean.logicalAnd(left, right)}. */
    public static boolean logicalAnd(boolean left, boolean right) {
        return left & right;
    }

    /** {@code Boolean.logicalOr(left, right)}. */
    public static boolean logicalOr(boolean left, boolean right) {
        return left | right;
    }

    /** {@code Boolean.logicalXor(left, right)}. */
    public static boolean logicalXor(boolean left, boolean right) {
        return left ^ right;
    }
}
