package varexj.lang;

/** What AssertionError has beside the machine's constructors. */
public final class AssertionErrorMembers {
    private AssertionErrorMembers() {
    }

    /** The message of {@code new AssertionError(value)}. */
    public static String init(boolean value) {
        return String.valueOf(value);
    }

    /** The message of {@code new AssertionError(value)}. */
    public static String init(char value) {
        return String.valueOf(value);
    }

    /** The message of {@code new AssertionError(value)}. */
    public static String init(int value) {
        return String.valueOf(value);
    }

    /** The message of {@code new AssertionError(value)}. */
    public static String init(long value) {
        return String.valueOf(value);
    }
}
