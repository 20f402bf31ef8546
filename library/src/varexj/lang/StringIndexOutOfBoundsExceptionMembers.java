package varexj.lang;

/** What StringIndexOutOfBoundsException has beside the machine's constructors. */
public final class StringIndexOutOfBoundsExceptionMembers {
    private StringIndexOutOfBoundsExceptionMembers() {
    }

    /** The message of {@code new StringIndexOutOfBoundsException(index)}. */
    public static String init(int index) {
        return "String index out of range: " + index;
    }
}
