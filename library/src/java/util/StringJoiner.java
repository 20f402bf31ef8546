package java.util;

/** Texts that are joined, with one between each two of them, one before and one behind. */
public final class StringJoiner {
    private final String delimiter;
    private final String prefix;
    private final String suffix;
    /** The texts that came, joined, or null where none came. */
    private StringBuilder joined;
    private String emptyValue;

    public StringJoiner(CharSequence delimiter) {
        this(delimiter, "", "");
    }

    public StringJoiner(CharSequence delimiter, CharSequence prefix, CharSequence suffix) {
        if (prefix == null) {
            throw new NullPointerException("The prefix must not be null");
        }
        if (delimiter == null) {
            throw new NullPointerException("The delimiter must not be null");
        }
        if (suffix == null) {
            throw new NullPointerException("The suffix must not be null");
        }
        this.delimiter = delimiter.toString();
        this.prefix = prefix.toString();
        this.suffix = suffix.toString();
    }

    public StringJoiner setEmptyValue(CharSequence emptyValue) {
        if (emptyValue == null) {
            throw new NullPointerException("The empty value must not be null");
        }
        this.emptyValue = emptyValue.toString();
        return this;
    }

    public StringJoiner add(CharSequence newElement) {
        String text = String.valueOf(newElement);
        if (joined == null) {
            joined = new StringBuilder();
        } else {
            joined.append(delimiter);
        }
        joined.append(text);
        return this;
    }

    public StringJoiner merge(StringJoiner other) {
        if (other == null) {
            throw new NullPointerException();
        }
        return other.joined == null ? this : add(other.joined.toString());
    }

    public int length() {
        return joined == null && emptyValue != null ? emptyValue.length()
                : prefix.length() + suffix.length() + (joined == null ? 0 : joined.length());
    }

    public String toString() {
        if (joined == null) {
            return emptyValue != null ? emptyValue : prefix.concat(suffix);
        }
        return prefix.concat(joined.toString()).concat(suffix);
    }
}
