package varexj.lang;

/** The members of CharSequence that the machine doesn't have, as static methods of the text. */
public final class CharSequenceMembers {
    private CharSequenceMembers() {
    }

    /** {@code text.subSequence(begin, end)}, of a text of the class library. */
    public static CharSequence subSequence(CharSequence text, int begin, int end) {
        if (text instanceof String || text instanceof StringBuilder || text instanceof StringBuffer) {
            return text.toString().substring(begin, end);
        }
        return ownSubSequence(text, begin, end);
    }

    private static native CharSequence ownSubSequence(CharSequence text, int begin, int end);

    /** {@code text.isEmpty()}, where the class doesn't say otherwise. */
    public static boolean isEmpty(CharSequence text) {
        return text.length() == 0;
    }

    /** {@code CharSequence.compare(left, right)}. */
    public static int compare(CharSequence left, CharSequence right) {
        int length = Math.min(left.length(), right.length());
        for (int at = 0; at < length; at++) {
            int difference = left.charAt(at) - right.charAt(at);
            if (difference != 0) {
                return difference;
            }
        }
        return left.length() - right.length();
    }
}
