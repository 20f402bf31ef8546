package java.lang;

import varexj.lang.StringBuilderMembers;
import varexj.lang.StringMembers;

/** A text that grows: all that it does a StringBuilder does. */
public final class StringBuffer implements Appendable, CharSequence, Comparable<StringBuffer>, java.io.Serializable {
    private final StringBuilder text;

    public StringBuffer() {
        text = new StringBuilder();
    }

    public StringBuffer(int capacity) {
        if (capacity < 0) {
            throw new NegativeArraySizeException(String.valueOf(capacity));
        }
        text = new StringBuilder();
    }

    public StringBuffer(String text) {
        this.text = new StringBuilder(text);
    }

    public StringBuffer(CharSequence text) {
        this.text = new StringBuilder(text.toString());
    }

    @Override
    public int length() {
        return text.length();
    }

    @Override
    public char charAt(int index) {
        return text.charAt(index);
    }

    @Override
    public String toString() {
        return text.toString();
    }

    @Override
    public int compareTo(StringBuffer other) {
        return text.toString().compareTo(other.toString());
    }

    public native int capacity();

    public void ensureCapacity(int capacity) {
    }

    public void trimToSize() {
    }

    public void setLength(int length) {
        text.setLength(length);
    }

    public void setCharAt(int at, char unit) {
        StringBuilderMembers.setCharAt(text, at, unit);
    }

    public StringBuffer deleteCharAt(int at) {
        text.deleteCharAt(at);
        return this;
    }

    public StringBuffer delete(int begin, int end) {
        StringBuilderMembers.delete(text, begin, end);
        return this;
    }

    public StringBuffer replace(int begin, int end, String now) {
        StringBuilderMembers.replace(text, begin, end, now);
        return this;
    }

    public StringBuffer reverse() {
        text.reverse();
        return this;
    }

    public String substring(int begin) {
        return text.toString().substring(begin);
    }

    public String substring(int begin, int end) {
        return text.toString().substring(begin, end);
    }

    public CharSequence subSequence(int begin, int end) {
        return text.toString().substring(begin, end);
    }

    public int indexOf(String part) {
        return text.toString().indexOf(part);
    }

    public int indexOf(String part, int from) {
        return StringMembers.indexOf(text.toString(), part, from);
    }

    public int lastIndexOf(String part) {
        return StringMembers.lastIndexOf(text.toString(), part);
    }

    public int lastIndexOf(String part, int from) {
        return StringMembers.lastIndexOf(text.toString(), part, from);
    }

    public void getChars(int begin, int end, char[] target, int at) {
        StringBuilderMembers.getChars(text, begin, end, target, at);
    }

    public int codePointAt(int index) {
        return Character.codePointAt(text, index);
    }

    public int codePointBefore(int index) {
        return Character.codePointBefore(text, index);
    }

    public int codePointCount(int begin, int end) {
        return Character.codePointCount(text, begin, end);
    }

    public int offsetByCodePoints(int index, int count) {
        return Character.offsetByCodePoints(text, index, count);
    }

    // ---- appending

    public StringBuffer append(Object value) {
        text.append(value);
        return this;
    }

    public StringBuffer append(String part) {
        text.append(part);
        return this;
    }

    public StringBuffer append(boolean value) {
        text.append(value);
        return this;
    }

    @Override
    public StringBuffer append(char unit) {
        text.append(unit);
        return this;
    }

    public StringBuffer append(int number) {
        text.append(number);
        return this;
    }

    public StringBuffer append(long number) {
        text.append(number);
        return this;
    }

    @Override
    public StringBuffer append(CharSequence part) {
        text.append(String.valueOf((Object) part));
        return this;
    }

    @Override
    public StringBuffer append(CharSequence part, int begin, int end) {
        StringBuilderMembers.append(text, part, begin, end);
        return this;
    }

    public StringBuffer append(StringBuffer part) {
        text.append(String.valueOf((Object) part));
        return this;
    }

    public StringBuffer append(char[] units) {
        StringBuilderMembers.append(text, units);
        return this;
    }

    public StringBuffer append(char[] units, int offset, int count) {
        StringBuilderMembers.append(text, units, offset, count);
        return this;
    }

    public StringBuffer appendCodePoint(int point) {
        StringBuilderMembers.appendCodePoint(text, point);
        return this;
    }

    // ---- inserting

    public StringBuffer insert(int at, Object value) {
        StringBuilderMembers.insert(text, at, value);
        return this;
    }

    public StringBuffer insert(int at, String part) {
        StringBuilderMembers.insert(text, at, part);
        return this;
    }

    public StringBuffer insert(int at, CharSequence part) {
        StringBuilderMembers.insert(text, at, part);
        return this;
    }

    public StringBuffer insert(int at, char[] units) {
        StringBuilderMembers.insert(text, at, units);
        return this;
    }

    public StringBuffer insert(int at, boolean value) {
        StringBuilderMembers.insert(text, at, value);
        return this;
    }

    public StringBuffer insert(int at, char unit) {
        StringBuilderMembers.insert(text, at, unit);
        return this;
    }

    public StringBuffer insert(int at, int number) {
        StringBuilderMembers.insert(text, at, number);
        return this;
    }

    public StringBuffer insert(int at, long number) {
        StringBuilderMembers.insert(text, at, number);
        return this;
    }

    public StringBuffer insert(int at, CharSequence part, int begin, int end) {
        StringBuilderMembers.insert(text, at, part, begin, end);
        return this;
    }

    public StringBuffer insert(int at, char[] units, int offset, int count) {
        StringBuilderMembers.insert(text, at, units, offset, count);
        return this;
    }
}
