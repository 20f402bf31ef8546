package varexj.lang;

/** What IndexOutOfBoundsException has beside the machine's constructors. */
public final class IndexOutOfBoundsExceptionMembers {
    private IndexOutOfBoundsExceptionMembers() {
    }

    /** The message of {@code new IndexOutOfBoundsException(index)}. */
    public static String init(int index) {
        return "Index out of range: " + index;
    }
}
