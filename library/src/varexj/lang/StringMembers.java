package varexj.lang;

import java.nio.charset.Charset;
import java.util.Comparator;
import java.util.Iterator;
import java.util.Locale;

/** The members of String that the machine doesn't have, as static methods of the text; {@code init} gives what a constructor would. */
public final class StringMembers {
    /** {@code String.CASE_INSENSITIVE_ORDER}. */
    public static final Comparator<String> CASE_INSENSITIVE_ORDER = new IgnoringCase();

    private static final class IgnoringCase implements Comparator<String> {
        IgnoringCase() {
        }

        @Override
        public int compare(String left, String right) {
            return compareToIgnoreCase(left, right);
        }
    }

    private StringMembers() {
    }

    // ---- constructors

    /** {@code new String(units, offset, count)}. */
    public static String init(char[] units, int offset, int count) {
        checkPart(offset, count, units.length);
        char[] part = new char[count];
        System.arraycopy(units, offset, part, 0, count);
        return new String(part);
    }

    /** {@code new String(points, offset, count)}, of code points. */
    public static String init(int[] points, int offset, int count) {
        checkPart(offset, count, points.length);
        StringBuilder text = new StringBuilder();
        for (int at = offset; at < offset + count; at++) {
            StringBuilderMembers.appendCodePoint(text, points[at]);
        }
        return text.toString();
    }

    /** {@code new String(builder)}. */
    public static String init(StringBuilder builder) {
        return builder.toString();
    }

    /** {@code new String(buffer)}. */
    public static String init(StringBuffer buffer) {
        return buffer.toString();
    }

    /** {@code new String(bytes)}, of UTF-8. */
    public static String init(byte[] bytes) {
        return Utf8.text(bytes, 0, bytes.length);
    }

    /** {@code new String(bytes, offset, count)}, of UTF-8. */
    public static String init(byte[] bytes, int offset, int count) {
        checkPart(offset, count, bytes.length);
        return Utf8.text(bytes, offset, count);
    }

    /** {@code new String(bytes, charset)}. */
    public static String init(byte[] bytes, Charset charset) {
        return init(bytes, 0, bytes.length, charset);
    }

    /** {@code new String(bytes, offset, count, charset)}. */
    public static String init(byte[] bytes, int offset, int count, Charset charset) {
        if (charset == null) {
            throw new NullPointerException("charset");
        }
        checkPart(offset, count, bytes.length);
        return Octets.text(bytes, offset, count, charset);
    }

    private static void checkPart(int offset, int count, int length) {
        if (offset < 0 || count < 0 || offset > length - count) {
            throw new StringIndexOutOfBoundsException("offset " + offset + ", count " + count + ", length " + length);
        }
    }

    static void checkRange(int begin, int end, int length) {
        if (begin < 0 || begin > end || end > length) {
            throw new StringIndexOutOfBoundsException("begin " + begin + ", end " + end + ", length " + length);
        }
    }

    // ---- static members

    /** {@code String.valueOf(units, offset, count)}. */
    public static String valueOf(char[] units, int offset, int count) {
        return init(units, offset, count);
    }

    /** {@code String.copyValueOf(units)}. */
    public static String copyValueOf(char[] units) {
        return new String(units);
    }

    /** {@code String.copyValueOf(units, offset, count)}. */
    public static String copyValueOf(char[] units, int offset, int count) {
        return init(units, offset, count);
    }

    /** {@code String.join(between, parts)}. */
    public static String join(CharSequence between, CharSequence... parts) {
        String separator = between.toString();
        StringBuilder text = new StringBuilder();
        for (int at = 0; at < parts.length; at++) {
            if (at > 0) {
                text.append(separator);
            }
            text.append(String.valueOf((Object) parts[at]));
        }
        return text.toString();
    }

    /** {@code String.join(between, parts)}. */
    public static String join(CharSequence between, Iterable<? extends CharSequence> parts) {
        String separator = between.toString();
        StringBuilder text = new StringBuilder();
        boolean first = true;
        for (Iterator<? extends CharSequence> each = parts.iterator(); each.hasNext();) {
            if (!first) {
                text.append(separator);
            }
            first = false;
            text.append(String.valueOf((Object) each.next()));
        }
        return text.toString();
    }

    /** {@code String.format(pattern, values)}. */
    public static String format(String pattern, Object... values) {
        return Format.format(pattern, values);
    }

    /** {@code String.format(locale, pattern, values)}; each locale that is here writes numbers alike. */
    public static String format(Locale locale, String pattern, Object... values) {
        return Format.format(pattern, values);
    }

    /** {@code pattern.formatted(values)}. */
    public static String formatted(String pattern, Object... values) {
        return Format.format(pattern, values);
    }

    // ---- searching

    /** {@code text.contains(part)}. */
    public static boolean contains(String text, CharSequence part) {
        return text.indexOf(part.toString()) >= 0;
    }

    /** {@code text.contentEquals(other)}. */
    public static boolean contentEquals(String text, CharSequence other) {
        int length = other.length();
        if (text.length() != length) {
            return false;
        }
        for (int at = 0; at < length; at++) {
            if (text.charAt(at) != other.charAt(at)) {
                return false;
            }
        }
        return true;
    }

    /** {@code text.contentEquals(other)}. */
    public static boolean contentEquals(String text, StringBuffer other) {
        return text.equals(other.toString());
    }

    /** {@code text.indexOf(point, from)}. */
    public static int indexOf(String text, int point, int from) {
        int start = from < 0 ? 0 : from;
        if (start >= text.length()) {
            return -1;
        }
        int found = text.substring(start).indexOf(point);
        return found < 0 ? -1 : found + start;
    }

    /** {@code text.indexOf(part, from)}. */
    public static int indexOf(String text, String part, int from) {
        int length = text.length();
        int start = from < 0 ? 0 : from > length ? length : from;
        int found = text.substring(start).indexOf(part);
        return found < 0 ? -1 : found + start;
    }

    /** {@code text.lastIndexOf(point)}. */
    public static int lastIndexOf(String text, int point) {
        return lastIndexOf(text, point, text.length() - 1);
    }

    /** {@code text.lastIndexOf(point, from)}. */
    public static int lastIndexOf(String text, int point, int from) {
        int length = text.length();
        if (point >>> 16 != 0) {
            return point < 0 || point > 0x10FFFF ? -1 : lastIndexOf(text, Character.toString(point), from);
        }
        for (int at = from >= length ? length - 1 : from; at >= 0; at--) {
            if (text.charAt(at) == point) {
                return at;
            }
        }
        return -1;
    }

    /** {@code text.lastIndexOf(part)}. */
    public static int lastIndexOf(String text, String part) {
        return lastIndexOf(text, part, text.length());
    }

    /** {@code text.lastIndexOf(part, from)}. */
    public static int lastIndexOf(String text, String part, int from) {
        int last = text.length() - part.length();
        int start = from > last ? last : from;
        if (start < 0) {
            return -1;
        }
        if (part.isEmpty()) {
            return start;
        }
        int found = -1;
        int next = text.indexOf(part);
        while (next >= 0 && next <= start) {
            found = next;
            next = indexOf(text, part, next + 1);
        }
        return found;
    }

    /** {@code text.startsWith(part, offset)}. */
    public static boolean startsWith(String text, String part, int offset) {
        return offset >= 0 && offset <= text.length() - part.length() && text.substring(offset).startsWith(part);
    }

    /** {@code text.regionMatches(offset, other, otherOffset, length)}. */
    public static boolean regionMatches(String text, int offset, String other, int otherOffset, int length) {
        return regionMatches(text, false, offset, other, otherOffset, length);
    }

    /** {@code text.regionMatches(ignoringCase, offset, other, otherOffset, length)}. */
    public static boolean regionMatches(String text, boolean ignoringCase, int offset, String other, int otherOffset, int length) {
        if (!ignoringCase && other == null) {
            throw new NullPointerException();
        }
        if (otherOffset < 0 || offset < 0 || offset > (long) text.length() - length || otherOffset > (long) other.length() - length) {
            return false;
        }
        if (length <= 0) {
            return true;
        }
        String left = text.substring(offset, offset + length);
        String right = other.substring(otherOffset, otherOffset + length);
        return ignoringCase ? equalsIgnoreCase(left, right) : left.equals(right);
    }

    // ---- parts

    /** {@code text.trim()}. */
    public static String trim(String text) {
        int end = text.length();
        int begin = 0;
        while (begin < end && text.charAt(begin) <= ' ') {
            begin++;
        }
        while (begin < end && text.charAt(end - 1) <= ' ') {
            end--;
        }
        return begin > 0 || end < text.length() ? text.substring(begin, end) : text;
    }

    /** {@code text.strip()}. */
    public static String strip(String text) {
        return stripTrailing(stripLeading(text));
    }

    /** {@code text.stripLeading()}. */
    public static String stripLeading(String text) {
        int length = text.length();
        int begin = 0;
        while (begin < length && Character.isWhitespace(text.charAt(begin))) {
            begin++;
        }
        return begin == 0 ? text : text.substring(begin);
    }

    /** {@code text.stripTrailing()}. */
    public static String stripTrailing(String text) {
        int length = text.length();
        int end = length;
        while (end > 0 && Character.isWhitespace(text.charAt(end - 1))) {
            end--;
        }
        return end == length ? text : text.substring(0, end);
    }

    /** {@code text.isBlank()}. */
    public static boolean isBlank(String text) {
        return stripLeading(text).isEmpty();
    }

    /** {@code text.repeat(count)}. */
    public static String repeat(String text, int count) {
        if (count < 0) {
            throw new IllegalArgumentException("count is negative: " + count);
        }
        StringBuilder repeated = new StringBuilder();
        for (int at = 0; at < count; at++) {
            repeated.append(text);
        }
        return repeated.toString();
    }

    /** {@code text.subSequence(begin, end)}. */
    public static CharSequence subSequence(String text, int begin, int end) {
        return text.substring(begin, end);
    }

    /** {@code text.getChars(begin, end, target, at)}. */
    public static void getChars(String text, int begin, int end, char[] target, int at) {
        checkRange(begin, end, text.length());
        checkPart(at, end - begin, target.length);
        System.arraycopy(text.toCharArray(), begin, target, at, end - begin);
    }

    /** {@code text.getBytes()}, in UTF-8. */
    public static byte[] getBytes(String text) {
        return Utf8.bytes(text);
    }

    /** {@code text.getBytes(charset)}. */
    public static byte[] getBytes(String text, Charset charset) {
        text.length();
        if (charset == null) {
            throw new NullPointerException();
        }
        return Octets.of(text, charset);
    }

    /** {@code text.split(expression)}. */
    public static String[] split(String text, String expression) {
        return split(text, expression, 0);
    }

    /** {@code text.split(expression, limit)}. */
    public static String[] split(String text, String expression, int limit) {
        return Expression.of(expression).split(text, limit);
    }

    /** {@code text.matches(expression)}. */
    public static boolean matches(String text, String expression) {
        return Expression.of(expression).matches(text);
    }

    // ---- replacing

    /** {@code text.replace(old, now)}. */
    public static String replace(String text, char old, char now) {
        if (text.indexOf(old) < 0) {
            return text;
        }
        char[] units = text.toCharArray();
        for (int at = 0; at < units.length; at++) {
            if (units[at] == old) {
                units[at] = now;
            }
        }
        return new String(units);
    }

    /** {@code text.replace(old, now)}. */
    public static String replace(String text, CharSequence old, CharSequence now) {
        String searched = old.toString();
        String put = now.toString();
        int found = text.indexOf(searched);
        if (found < 0) {
            return text;
        }
        int step = searched.length();
        StringBuilder replaced = new StringBuilder();
        if (step == 0) {
            int length = text.length();
            for (int at = 0; at < length; at++) {
                replaced.append(put).append(text.charAt(at));
            }
            return replaced.append(put).toString();
        }
        String rest = text;
        while (found >= 0) {
            replaced.append(rest.substring(0, found)).append(put);
            rest = rest.substring(found + step);
            found = rest.indexOf(searched);
        }
        return replaced.append(rest).toString();
    }

    /** {@code text.replaceAll(expression, now)}. */
    public static String replaceAll(String text, String expression, String now) {
        return Expression.of(expression).replace(text, now, true);
    }

    /** {@code text.replaceFirst(expression, now)}. */
    public static String replaceFirst(String text, String expression, String now) {
        Expression read = Expression.of(expression);
        if (now == null) {
            throw new NullPointerException("replacement");
        }
        return read.replace(text, now, false);
    }

    // ---- case

    /** {@code text.toLowerCase()}, where the language is none of Turkish, Azeri and Lithuanian. */
    public static String toLowerCase(String text) {
        char[] units = text.toCharArray();
        boolean changed = false;
        for (int at = 0; at < units.length; at++) {
            char unit = units[at];
            if (unit < 128 ? unit >= 'A' && unit <= 'Z' : true) {
                char lower = unit < 128 ? (char) (unit + 32) : lowerCaseInText(unit);
                changed |= lower != unit;
                units[at] = lower;
            }
        }
        return changed ? new String(units) : text;
    }

    /** {@code text.toLowerCase(locale)}; each locale that is here has the same cases. */
    public static String toLowerCase(String text, Locale locale) {
        text.length();
        locale.getLanguage();
        return toLowerCase(text);
    }

    /** {@code text.toUpperCase(locale)}. */
    public static String toUpperCase(String text, Locale locale) {
        text.length();
        locale.getLanguage();
        return toUpperCase(text);
    }

    /** {@code text.toUpperCase()}, where the language is none of Turkish, Azeri and Lithuanian. */
    public static String toUpperCase(String text) {
        char[] units = text.toCharArray();
        boolean changed = false;
        for (int at = 0; at < units.length; at++) {
            char unit = units[at];
            if (unit < 128 ? unit >= 'a' && unit <= 'z' : true) {
                char upper = unit < 128 ? (char) (unit - 32) : upperCaseInText(unit);
                changed |= upper != unit;
                units[at] = upper;
            }
        }
        return changed ? new String(units) : text;
    }

    /** The lower case of a unit past ASCII that stands in any text; the capital sigma goes by its neighbours, and one other becomes two units. */
    private static char lowerCaseInText(char unit) {
        if (unit == 0x3A3 || unit == 0x130 || unit >= 0xD800 && unit <= 0xDFFF) {
            return lowerCaseByNeighbours(unit);
        }
        return Character.toLowerCase(unit);
    }

    private static char upperCaseInText(char unit) {
        if (unit >= 0xD800 && unit <= 0xDFFF || CharacterTables.hasLongUpper(unit)) {
            return upperCaseOfSeveralUnits(unit);
        }
        return Character.toUpperCase(unit);
    }

    private static native char lowerCaseByNeighbours(char unit);

    private static native char upperCaseOfSeveralUnits(char unit);

    /** {@code text.equalsIgnoreCase(other)}. */
    public static boolean equalsIgnoreCase(String text, String other) {
        if (other == null || text.length() != other.length()) {
            return false;
        }
        return text.equals(other) || compareToIgnoreCase(text, other) == 0;
    }

    /** {@code text.compareToIgnoreCase(other)}. */
    public static int compareToIgnoreCase(String text, String other) {
        int length = Math.min(text.length(), other.length());
        for (int at = 0; at < length; at++) {
            char left = text.charAt(at);
            char right = other.charAt(at);
            if (left != right) {
                int difference = folded(left) - folded(right);
                if (difference != 0) {
                    return difference;
                }
            }
        }
        return text.length() - other.length();
    }

    /** A unit as texts are compared that ignore case: the lower case of its upper case. */
    private static int folded(char unit) {
        if (unit < 128) {
            return unit >= 'A' && unit <= 'Z' ? unit + 32 : unit;
        }
        return unit >= 0xD800 && unit <= 0xDFFF ? foldedSurrogate(unit) : Character.toLowerCase(Character.toUpperCase(unit));
    }

    private static native int foldedSurrogate(char unit);

    // ---- code points

    /** {@code text.codePointAt(index)}. */
    public static int codePointAt(String text, int index) {
        return Character.codePointAt(text, index);
    }

    /** {@code text.codePointBefore(index)}. */
    public static int codePointBefore(String text, int index) {
        return Character.codePointBefore(text, index);
    }

    /** {@code text.codePointCount(begin, end)}. */
    public static int codePointCount(String text, int begin, int end) {
        return Character.codePointCount(text, begin, end);
    }

    /** {@code text.offsetByCodePoints(index, count)}. */
    public static int offsetByCodePoints(String text, int index, int count) {
        return Character.offsetByCodePoints(text, index, count);
    }

    /** {@code text.intern()}. */
    public static native String intern(String text);
}
