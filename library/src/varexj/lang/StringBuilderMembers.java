package varexj.lang;

/** The members of StringBuilder that the machine doesn't have, as static methods of the builder. */
public final class StringBuilderMembers {
    private StringBuilderMembers() {
    }

    /** The text of {@code new StringBuilder(text)}. */
    public static String init(CharSequence text) {
        return text.toString();
    }

    // ---- appending

    /** {@code builder.append(units)}. */
    public static StringBuilder append(StringBuilder builder, char[] units) {
        return builder.append(new String(units));
    }

    /** {@code builder.append(units, offset, count)}. */
    public static StringBuilder append(StringBuilder builder, char[] units, int offset, int count) {
        if (offset < 0 || count < 0 || offset > units.length - count) {
            throw new IndexOutOfBoundsException("start " + offset + ", end " + (offset + count) + ", length " + units.length);
        }
        return builder.append(StringMembers.init(units, offset, count));
    }

    /** {@code builder.append(text)}. */
    public static StringBuilder append(StringBuilder builder, CharSequence text) {
        return builder.append(String.valueOf((Object) text));
    }

    /** {@code builder.append(text, begin, end)}. */
    public static StringBuilder append(StringBuilder builder, CharSequence text, int begin, int end) {
        return builder.append(part(text, begin, end));
    }

    /** {@code builder.append(buffer)}. */
    public static StringBuilder append(StringBuilder builder, StringBuffer buffer) {
        return builder.append(String.valueOf((Object) buffer));
    }

    /** {@code builder.appendCodePoint(point)}. */
    public static StringBuilder appendCodePoint(StringBuilder builder, int point) {
        if (point >>> 16 == 0) {
            return builder.append((char) point);
        }
        return builder.append(Character.toChars(point)[0]).append(Character.lowSurrogate(point));
    }

    /** The units of a text from begin up to end, of {@code null} where there is none. */
    static String part(CharSequence text, int begin, int end) {
        String whole = String.valueOf((Object) text);
        if (begin < 0 || begin > end || end > whole.length()) {
            throw new IndexOutOfBoundsException("start " + begin + ", end " + end + ", length " + whole.length());
        }
        return whole.substring(begin, end);
    }

    // ---- inserting

    private static void checkOffset(StringBuilder builder, int at) {
        int length = builder.length();
        if (at < 0 || at > length) {
            throw new StringIndexOutOfBoundsException("offset " + at + ", length " + length);
        }
    }

    /** {@code builder.insert(at, text)}. */
    public static StringBuilder insert(StringBuilder builder, int at, String text) {
        checkOffset(builder, at);
        String tail = builder.toString().substring(at);
        builder.setLength(at);
        return builder.append(text).append(tail);
    }

    /** {@code builder.insert(at, units)}. */
    public static StringBuilder insert(StringBuilder builder, int at, char[] units) {
        checkOffset(builder, at);
        return insert(builder, at, new String(units));
    }

    /** {@code builder.insert(at, units, offset, count)}. */
    public static StringBuilder insert(StringBuilder builder, int at, char[] units, int offset, int count) {
        checkOffset(builder, at);
        if (offset < 0 || count < 0 || offset > units.length - count) {
            throw new StringIndexOutOfBoundsException("start " + offset + ", end " + (offset + count) + ", length " + units.length);
        }
        return insert(builder, at, StringMembers.init(units, offset, count));
    }

    /** {@code builder.insert(at, value)}. */
    public static StringBuilder insert(StringBuilder builder, int at, Object value) {
        return insert(builder, at, String.valueOf(value));
    }

    /** {@code builder.insert(at, text)}. */
    public static StringBuilder insert(StringBuilder builder, int at, CharSequence text) {
        return insert(builder, at, String.valueOf((Object) text));
    }

    /** {@code builder.insert(at, text, begin, end)}. */
    public static StringBuilder insert(StringBuilder builder, int at, CharSequence text, int begin, int end) {
        checkOffset(builder, at);
        return insert(builder, at, part(text, begin, end));
    }

    /** {@code builder.insert(at, value)}. */
    public static StringBuilder insert(StringBuilder builder, int at, boolean value) {
        return insert(builder, at, String.valueOf(value));
    }

    /** {@code builder.insert(at, unit)}. */
    public static StringBuilder insert(StringBuilder builder, int at, char unit) {
        return insert(builder, at, String.valueOf(unit));
    }

    /** {@code builder.insert(at, number)}. */
    public static StringBuilder insert(StringBuilder builder, int at, int number) {
        return insert(builder, at, String.valueOf(number));
    }

    /** {@code builder.insert(at, number)}. */
    public static StringBuilder insert(StringBuilder builder, int at, long number) {
        return insert(builder, at, String.valueOf(number));
    }

    // ---- changing

    /** {@code builder.delete(begin, end)}. */
    public static StringBuilder delete(StringBuilder builder, int begin, int end) {
        return replace(builder, begin, end, "");
    }

    /** {@code builder.replace(begin, end, text)}. */
    public static StringBuilder replace(StringBuilder builder, int begin, int end, String text) {
        int length = builder.length();
        int stop = end > length ? length : end;
        if (begin < 0 || begin > stop) {
            throw new StringIndexOutOfBoundsException("start " + begin + ", end " + stop + ", length " + length);
        }
        int added = text.length();
        String tail = builder.toString().substring(stop);
        builder.setLength(begin);
        if (added > 0) {
            builder.append(text);
        }
        return builder.append(tail);
    }

    /** {@code builder.setCharAt(at, unit)}. */
    public static void setCharAt(StringBuilder builder, int at, char unit) {
        int length = builder.length();
        if (at < 0 || at >= length) {
            throw new StringIndexOutOfBoundsException("index " + at + ",length " + length);
        }
        String tail = builder.toString().substring(at + 1);
        builder.setLength(at);
        builder.append(unit).append(tail);
    }

    // ---- asking

    /** {@code builder.indexOf(text)}. */
    public static int indexOf(StringBuilder builder, String text) {
        return builder.toString().indexOf(text);
    }

    /** {@code builder.indexOf(text, from)}. */
    public static int indexOf(StringBuilder builder, String text, int from) {
        return StringMembers.indexOf(builder.toString(), text, from);
    }

    /** {@code builder.lastIndexOf(text)}. */
    public static int lastIndexOf(StringBuilder builder, String text) {
        return StringMembers.lastIndexOf(builder.toString(), text);
    }

    /** {@code builder.lastIndexOf(text, from)}. */
    public static int lastIndexOf(StringBuilder builder, String text, int from) {
        return StringMembers.lastIndexOf(builder.toString(), text, from);
    }

    /** {@code builder.substring(begin)}. */
    public static String substring(StringBuilder builder, int begin) {
        return builder.toString().substring(begin);
    }

    /** {@code builder.substring(begin, end)}. */
    public static String substring(StringBuilder builder, int begin, int end) {
        return builder.toString().substring(begin, end);
    }

    /** {@code builder.subSequence(begin, end)}. */
    public static CharSequence subSequence(StringBuilder builder, int begin, int end) {
        return builder.toString().substring(begin, end);
    }

    /** {@code builder.getChars(begin, end, target, at)}. */
    public static void getChars(StringBuilder builder, int begin, int end, char[] target, int at) {
        int length = builder.length();
        StringMembers.checkRange(begin, end, length);
        if (at < 0 || at > target.length - (end - begin)) {
            throw new IndexOutOfBoundsException("start " + at + ", end " + (at + end - begin) + ", length " + target.length);
        }
        System.arraycopy(builder.toString().toCharArray(), begin, target, at, end - begin);
    }

    /** {@code builder.isEmpty()}. */
    public static boolean isEmpty(StringBuilder builder) {
        return builder.length() == 0;
    }

    /** {@code builder.compareTo(other)}. */
    public static int compareTo(StringBuilder builder, StringBuilder other) {
        return builder.toString().compareTo(other.toString());
    }

    /** {@code builder.codePointAt(index)}. */
    public static int codePointAt(StringBuilder builder, int index) {
        return Character.codePointAt(builder, index);
    }

    /** {@code builder.codePointBefore(index)}. */
    public static int codePointBefore(StringBuilder builder, int index) {
        return Character.codePointBefore(builder, index);
    }

    /** {@code builder.codePointCount(begin, end)}. */
    public static int codePointCount(StringBuilder builder, int begin, int end) {
        return Character.codePointCount(builder, begin, end);
    }

    /** {@code builder.offsetByCodePoints(index, count)}. */
    public static int offsetByCodePoints(StringBuilder builder, int index, int count) {
        return Character.offsetByCodePoints(builder, index, count);
    }

    /** {@code builder.ensureCapacity(capacity)}: nothing that can be seen. */
    public static void ensureCapacity(StringBuilder builder, int capacity) {
        if (builder == null) {
            throw new NullPointerException();
        }
    }

    /** {@code builder.trimToSize()}: nothing that can be seen. */
    public static void trimToSize(StringBuilder builder) {
        ensureCapacity(builder, 0);
    }

    /** {@code builder.capacity()}: the class library leaves it open. */
    public static native int capacity(StringBuilder builder);
}
