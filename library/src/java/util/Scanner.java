package java.util;

/**
 * The words and lines of a text. Words stand between white space; patterns, other delimiters and readers are left out. A number in which a Java machine
 * may see groups of digits, as its locale decides, ends the run.
 */
public final class Scanner implements Iterator<String>, java.io.Closeable {
    private final String text;
    private int place;
    private boolean closed;

    public Scanner(String source) {
        if (source == null) {
            throw new NullPointerException("source");
        }
        text = source;
    }

    private static native void numberInGroups();

    public void close() {
        closed = true;
    }

    private void wantOpen() {
        if (closed) {
            throw new IllegalStateException("Scanner closed");
        }
    }

    private static boolean isSpace(char unit) {
        return unit == ' ' || unit >= 9 && unit <= 13 || unit >= 28 && unit < 32
                || unit >= '\u1680' && (unit == '\u1680' || unit >= '\u2000' && unit <= '\u200a' && unit != '\u2007'
                || unit == '\u2028' || unit == '\u2029' || unit == '\u205f' || unit == '\u3000');
    }

    private static boolean isLineEnd(char unit) {
        return unit == '\n' || unit == '\r' || unit == '\u2028' || unit == '\u2029' || unit == '\u0085';
    }

    /** The start of the next word, or the end of the text. */
    private int wordFrom() {
        int at = place;
        while (at < text.length() && isSpace(text.charAt(at))) {
            at++;
        }
        return at;
    }

    private int wordTo(int from) {
        int at = from;
        while (at < text.length() && !isSpace(text.charAt(at))) {
            at++;
        }
        return at;
    }

    /** The next word, which isn't taken, or null. */
    private String word() {
        wantOpen();
        int from = wordFrom();
        return from == text.length() ? null : text.substring(from, wordTo(from));
    }

    /** Goes to the next word, which has to be there. */
    private String wantWord() {
        wantOpen();
        place = wordFrom();
        if (place == text.length()) {
            throw new NoSuchElementException();
        }
        return text.substring(place, wordTo(place));
    }

    public boolean hasNext() {
        return word() != null;
    }

    public String next() {
        String word = wantWord();
        place += word.length();
        return word;
    }

    public void remove() {
        throw new UnsupportedOperationException();
    }

    /** The end of the line at the place, without what ends it. */
    private int lineTo() {
        int at = place;
        while (at < text.length() && !isLineEnd(text.charAt(at))) {
            at++;
        }
        return at;
    }

    public boolean hasNextLine() {
        wantOpen();
        return place < text.length();
    }

    public String nextLine() {
        wantOpen();
        if (place >= text.length()) {
            throw new NoSuchElementException("No line found");
        }
        int to = lineTo();
        String line = text.substring(place, to);
        if (to < text.length()) {
            to = text.charAt(to) == '\r' && to + 1 < text.length() && text.charAt(to + 1) == '\n' ? to + 2 : to + 1;
        }
        place = to;
        return line;
    }

    private static boolean isDigit(char unit) {
        return unit >= '0' && unit <= '9';
    }

    /** Whether a word is a decimal number. Ends the run where that is up to the locale. */
    private static boolean isNumber(String word) {
        int from = word.charAt(0) == '-' || word.charAt(0) == '+' ? 1 : 0;
        boolean digits = from < word.length();
        int groups = 0;
        int sinceGroup = 0;
        boolean grouped = true;
        for (int i = from; i < word.length(); i++) {
            char unit = word.charAt(i);
            if (unit > 126) {
                numberInGroups();
            }
            if (isDigit(unit)) {
                sinceGroup++;
            } else {
                digits = false;
                if (sinceGroup < 1 || sinceGroup > 3 || groups > 0 && sinceGroup != 3) {
                    grouped = false;
                }
                groups++;
                sinceGroup = 0;
            }
        }
        if (grouped && groups > 0 && sinceGroup == 3) {
            numberInGroups();
        }
        return digits;
    }

    /** The number that a word spells, or null where it doesn't fit a long. */
    private static Long number(String word) {
        boolean negative = word.charAt(0) == '-';
        int from = negative || word.charAt(0) == '+' ? 1 : 0;
        long value = 0;
        for (int i = from; i < word.length(); i++) {
            int digit = word.charAt(i) - '0';
            if (value < (Long.MIN_VALUE + digit) / 10) {
                return null;
            }
            value = value * 10 - digit;
        }
        if (!negative && value == Long.MIN_VALUE) {
            return null;
        }
        return negative ? value : -value;
    }

    private boolean hasNumber(long least, long greatest) {
        String word = word();
        if (word == null || !isNumber(word)) {
            return false;
        }
        Long number = number(word);
        return number != null && number.longValue() >= least && number.longValue() <= greatest;
    }

    private long nextNumber(long least, long greatest) {
        String word = wantWord();
        if (!isNumber(word)) {
            throw new InputMismatchException();
        }
        Long number = number(word);
        if (number == null || number.longValue() < least || number.longValue() > greatest) {
            throw new InputMismatchException("For input string: \"" + word + "\"");
        }
        place += word.length();
        return number.longValue();
    }

    public boolean hasNextInt() {
        return hasNumber(Integer.MIN_VALUE, Integer.MAX_VALUE);
    }

    public int nextInt() {
        return (int) nextNumber(Integer.MIN_VALUE, Integer.MAX_VALUE);
    }

    public boolean hasNextLong() {
        return hasNumber(Long.MIN_VALUE, Long.MAX_VALUE);
    }

    public long nextLong() {
        return nextNumber(Long.MIN_VALUE, Long.MAX_VALUE);
    }

    public boolean hasNextShort() {
        return hasNumber(-32768, 32767);
    }

    public short nextShort() {
        return (short) nextNumber(-32768, 32767);
    }

    public boolean hasNextByte() {
        return hasNumber(-128, 127);
    }

    public byte nextByte() {
        return (byte) nextNumber(-128, 127);
    }

    private static boolean isWord(String word, String lower) {
        if (word.length() != lower.length()) {
            return false;
        }
        for (int i = 0; i < lower.length(); i++) {
            char unit = word.charAt(i);
            if (unit != lower.charAt(i) && unit != lower.charAt(i) - 32) {
                return false;
            }
        }
        return true;
    }

    public boolean hasNextBoolean() {
        String word = word();
        return word != null && (isWord(word, "true") || isWord(word, "false"));
    }

    public boolean nextBoolean() {
        String word = wantWord();
        boolean value = isWord(word, "true");
        if (!value && !isWord(word, "false")) {
            throw new InputMismatchException();
        }
        place += word.length();
        return value;
    }
}
