package varexj.lang;

/** What ArrayIndexOutOfBoundsException has beside the machine's constructors. */
public final class ArrayIndexOutOfBoundsExceptionMembers {
    private ArrayIndexOutOfBoundsExceptionMembers() {
    }

    /** The message of {@code new ArrayIndexOutOfBoundsException(index)}. */
    public static String init(int index) {
        return "Array index out of range: " + index;
    }
}
