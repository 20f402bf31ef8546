package java.lang;

import varexj.lang.CharacterTables;
import varexj.lang.Digits;

/** A unit of UTF-16 as an object, and what is said of code points. */
public final class Character implements Comparable<Character>, java.io.Serializable {
    public static final int MIN_RADIX = 2;
    public static final int MAX_RADIX = 36;
    public static final char MIN_VALUE = '\u0000';
    public static final char MAX_VALUE = '\uFFFF';
    public static final int SIZE = 16;
    public static final int BYTES = 2;

    public static final char MIN_HIGH_SURROGATE = '\uD800';
    public static final char MAX_HIGH_SURROGATE = '\uDBFF';
    public static final char MIN_LOW_SURROGATE = '\uDC00';
    public static final char MAX_LOW_SURROGATE = '\uDFFF';
    public static final char MIN_SURROGATE = MIN_HIGH_SURROGATE;
    public static final char MAX_SURROGATE = MAX_LOW_SURROGATE;
    public static final int MIN_SUPPLEMENTARY_CODE_POINT = 0x10000;
    public static final int MIN_CODE_POINT = 0;
    public static final int MAX_CODE_POINT = 0x10FFFF;

    public static final byte UNASSIGNED = 0;
    public static final byte UPPERCASE_LETTER = 1;
    public static final byte LOWERCASE_LETTER = 2;
    public static final byte TITLECASE_LETTER = 3;
    public static final byte MODIFIER_LETTER = 4;
    public static final byte OTHER_LETTER = 5;
    public static final byte NON_SPACING_MARK = 6;
    public static final byte ENCLOSING_MARK = 7;
    public static final byte COMBINING_SPACING_MARK = 8;
    public static final byte DECIMAL_DIGIT_NUMBER = 9;
    public static final byte LETTER_NUMBER = 10;
    public static final byte OTHER_NUMBER = 11;
    public static final byte SPACE_SEPARATOR = 12;
    public static final byte LINE_SEPARATOR = 13;
    public static final byte PARAGRAPH_SEPARATOR = 14;
    public static final byte CONTROL = 15;
    public static final byte FORMAT = 16;
    public static final byte PRIVATE_USE = 18;
    public static final byte SURROGATE = 19;
    public static final byte DASH_PUNCTUATION = 20;
    public static final byte START_PUNCTUATION = 21;
    public static final byte END_PUNCTUATION = 22;
    public static final byte CONNECTOR_PUNCTUATION = 23;
    public static final byte OTHER_PUNCTUATION = 24;
    public static final byte MATH_SYMBOL = 25;
    public static final byte CURRENCY_SYMBOL = 26;
    public static final byte MODIFIER_SYMBOL = 27;
    public static final byte OTHER_SYMBOL = 28;
    public static final byte INITIAL_QUOTE_PUNCTUATION = 29;
    public static final byte FINAL_QUOTE_PUNCTUATION = 30;

    private static final int LETTERS = 1 << UPPERCASE_LETTER | 1 << LOWERCASE_LETTER | 1 << TITLECASE_LETTER | 1 << MODIFIER_LETTER | 1 << OTHER_LETTER;
    private static final int DIGITS = 1 << DECIMAL_DIGIT_NUMBER;
    private static final int SPACES = 1 << SPACE_SEPARATOR | 1 << LINE_SEPARATOR | 1 << PARAGRAPH_SEPARATOR;
    private static final int STARTS = LETTERS | 1 << LETTER_NUMBER | 1 << CURRENCY_SYMBOL | 1 << CONNECTOR_PUNCTUATION;
    private static final int PARTS = STARTS | DIGITS | 1 << COMBINING_SPACING_MARK | 1 << NON_SPACING_MARK;

    private static final Character[] CACHE = new Character[128];

    private final char value;

    public Character(char value) {
        this.value = value;
    }

    /** One object for each unit of ASCII, made at its first use. */
    public static Character valueOf(char value) {
        if (value > 127) {
            return new Character(value);
        }
        Character kept = CACHE[value];
        if (kept == null) {
            kept = new Character(value);
            CACHE[value] = kept;
        }
        return kept;
    }

    public char charValue() {
        return value;
    }

    @Override
    public int hashCode() {
        return value;
    }

    public static int hashCode(char value) {
        return value;
    }

    @Override
    public boolean equals(Object other) {
        return other instanceof Character && value == ((Character) other).value;
    }

    @Override
    public String toString() {
        return String.valueOf(value);
    }

    public static String toString(char value) {
        return String.valueOf(value);
    }

    public static String toString(int point) {
        return point >>> 16 == 0 ? String.valueOf((char) point) : new String(toChars(point));
    }

    @Override
    public int compareTo(Character other) {
        return value - other.value;
    }

    public static int compare(char left, char right) {
        return left - right;
    }

    public static char reverseBytes(char value) {
        return (char) (value << 8 | value >> 8);
    }

    // ---- what is said of a code point

    /** Whether the category of a code point is one of these. */
    private static boolean isOneOf(int categories, int point) {
        return (categories >> CharacterTables.category(point) & 1) != 0;
    }

    public static int getType(int point) {
        return CharacterTables.category(point);
    }

    public static boolean isLowerCase(int point) {
        if (point >= 0 && point < 128) {
            return point >= 'a' && point <= 'z';
        }
        return CharacterTables.category(point) == LOWERCASE_LETTER || CharacterTables.isOtherLower(point);
    }

    public static boolean isUpperCase(int point) {
        if (point >= 0 && point < 128) {
            return point >= 'A' && point <= 'Z';
        }
        return CharacterTables.category(point) == UPPERCASE_LETTER || CharacterTables.isOtherUpper(point);
    }

    public static boolean isTitleCase(int point) {
        return CharacterTables.category(point) == TITLECASE_LETTER;
    }

    public static boolean isDigit(int point) {
        if (point >= 0 && point < 128) {
            return point >= '0' && point <= '9';
        }
        return CharacterTables.category(point) == DECIMAL_DIGIT_NUMBER;
    }

    public static boolean isDefined(int point) {
        return CharacterTables.category(point) != UNASSIGNED;
    }

    public static boolean isLetter(int point) {
        if (point >= 0 && point < 128) {
            return point >= 'a' && point <= 'z' || point >= 'A' && point <= 'Z';
        }
        return isOneOf(LETTERS, point);
    }

    public static boolean isLetterOrDigit(int point) {
        if (point >= 0 && point < 128) {
            return point >= 'a' && point <= 'z' || point >= '0' && point <= '9' || point >= 'A' && point <= 'Z';
        }
        return isOneOf(LETTERS | DIGITS, point);
    }

    public static boolean isAlphabetic(int point) {
        return isOneOf(LETTERS | 1 << LETTER_NUMBER, point) || CharacterTables.isOtherAlphabetic(point);
    }

    public static boolean isIdeographic(int point) {
        return CharacterTables.isIdeographic(point);
    }

    public static boolean isJavaIdentifierStart(int point) {
        return isOneOf(STARTS, point);
    }

    public static boolean isJavaIdentifierPart(int point) {
        return isOneOf(PARTS, point) || isIdentifierIgnorable(point);
    }

    public static boolean isUnicodeIdentifierStart(int point) {
        return CharacterTables.startsIdentifier(point);
    }

    public static boolean isUnicodeIdentifierPart(int point) {
        return CharacterTables.isInIdentifier(point);
    }

    public static boolean isIdentifierIgnorable(int point) {
        return point >= 0 && (point <= 8 || point >= 0x0E && point <= 0x1B || point >= 0x7F && point <= 0x9F || isOneOf(1 << FORMAT, point));
    }

    public static boolean isSpaceChar(int point) {
        return isOneOf(SPACES, point);
    }

    public static boolean isWhitespace(int point) {
        if (point >= 0 && point < 128) {
            return point == ' ' || point >= 9 && point <= 13 || point >= 28 && point <= 31;
        }
        return point != 0xA0 && point != 0x2007 && point != 0x202F && isOneOf(SPACES, point);
    }

    public static boolean isISOControl(int point) {
        return point >= 0 && point <= 0x9F && (point <= 0x1F || point >= 0x7F);
    }

    public static boolean isMirrored(int point) {
        return CharacterTables.isMirrored(point);
    }

    public static int toLowerCase(int point) {
        if (point >= 0 && point < 128) {
            return point >= 'A' && point <= 'Z' ? point + 32 : point;
        }
        return CharacterTables.lower(point);
    }

    public static int toUpperCase(int point) {
        if (point >= 0 && point < 128) {
            return point >= 'a' && point <= 'z' ? point - 32 : point;
        }
        return CharacterTables.upper(point);
    }

    public static int toTitleCase(int point) {
        return CharacterTables.title(point);
    }

    public static int digit(int point, int radix) {
        if (radix < MIN_RADIX || radix > MAX_RADIX || point < 0) {
            return -1;
        }
        int digit = -1;
        if (point < 128) {
            digit = point <= '9' ? point - '0' : point >= 'a' && point <= 'z' ? point - 'a' + 10 : point >= 'A' && point <= 'Z' ? point - 'A' + 10 : -1;
        } else if (CharacterTables.category(point) == DECIMAL_DIGIT_NUMBER || point >= 0xFF21 && point <= 0xFF3A || point >= 0xFF41 && point <= 0xFF5A) {
            digit = CharacterTables.number(point);
        }
        return digit >= 0 && digit < radix ? digit : -1;
    }

    public static int getNumericValue(int point) {
        return CharacterTables.number(point);
    }

    public static char forDigit(int digit, int radix) {
        if (radix < MIN_RADIX || radix > MAX_RADIX || digit < 0 || digit >= radix) {
            return '\0';
        }
        return (char) (digit < 10 ? '0' + digit : 'a' - 10 + digit);
    }

    public static native byte getDirectionality(int point);

    public static native String getName(int point);

    // ---- the same of a unit

    public static int getType(char unit) {
        return getType((int) unit);
    }

    public static boolean isLowerCase(char unit) {
        return isLowerCase((int) unit);
    }

    public static boolean isUpperCase(char unit) {
        return isUpperCase((int) unit);
    }

    public static boolean isTitleCase(char unit) {
        return isTitleCase((int) unit);
    }

    public static boolean isDigit(char unit) {
        return isDigit((int) unit);
    }

    public static boolean isDefined(char unit) {
        return isDefined((int) unit);
    }

    public static boolean isLetter(char unit) {
        return isLetter((int) unit);
    }

    public static boolean isLetterOrDigit(char unit) {
        return isLetterOrDigit((int) unit);
    }

    public static boolean isJavaIdentifierStart(char unit) {
        return isJavaIdentifierStart((int) unit);
    }

    public static boolean isJavaIdentifierPart(char unit) {
        return isJavaIdentifierPart((int) unit);
    }

    public static boolean isUnicodeIdentifierStart(char unit) {
        return isUnicodeIdentifierStart((int) unit);
    }

    public static boolean isUnicodeIdentifierPart(char unit) {
        return isUnicodeIdentifierPart((int) unit);
    }

    public static boolean isIdentifierIgnorable(char unit) {
        return isIdentifierIgnorable((int) unit);
    }

    public static boolean isSpaceChar(char unit) {
        return isSpaceChar((int) unit);
    }

    public static boolean isWhitespace(char unit) {
        return isWhitespace((int) unit);
    }

    public static boolean isISOControl(char unit) {
        return isISOControl((int) unit);
    }

    public static boolean isMirrored(char unit) {
        return isMirrored((int) unit);
    }

    public static char toLowerCase(char unit) {
        return (char) toLowerCase((int) unit);
    }

    public static char toUpperCase(char unit) {
        return (char) toUpperCase((int) unit);
    }

    public static char toTitleCase(char unit) {
        return (char) toTitleCase((int) unit);
    }

    public static int getNumericValue(char unit) {
        return getNumericValue((int) unit);
    }

    public static byte getDirectionality(char unit) {
        return getDirectionality((int) unit);
    }

    public static int digit(char unit, int radix) {
        return digit((int) unit, radix);
    }

    public static boolean isSpace(char unit) {
        return unit == ' ' || unit == '\t' || unit == '\n' || unit == '\f' || unit == '\r';
    }

    public static boolean isJavaLetter(char unit) {
        return isJavaIdentifierStart((int) unit);
    }

    public static boolean isJavaLetterOrDigit(char unit) {
        return isJavaIdentifierPart((int) unit);
    }

    // ---- code points and units

    public static boolean isValidCodePoint(int point) {
        return point >= 0 && point <= MAX_CODE_POINT;
    }

    public static boolean isBmpCodePoint(int point) {
        return point >>> 16 == 0;
    }

    public static boolean isSupplementaryCodePoint(int point) {
        return point >= MIN_SUPPLEMENTARY_CODE_POINT && point <= MAX_CODE_POINT;
    }

    public static boolean isHighSurrogate(char unit) {
        return unit >= MIN_HIGH_SURROGATE && unit <= MAX_HIGH_SURROGATE;
    }

    public static boolean isLowSurrogate(char unit) {
        return unit >= MIN_LOW_SURROGATE && unit <= MAX_LOW_SURROGATE;
    }

    public static boolean isSurrogate(char unit) {
        return unit >= MIN_SURROGATE && unit <= MAX_SURROGATE;
    }

    public static boolean isSurrogatePair(char high, char low) {
        return isHighSurrogate(high) && isLowSurrogate(low);
    }

    public static int charCount(int point) {
        return point >= MIN_SUPPLEMENTARY_CODE_POINT ? 2 : 1;
    }

    public static int toCodePoint(char high, char low) {
        return (high << 10) + low + (MIN_SUPPLEMENTARY_CODE_POINT - (MIN_HIGH_SURROGATE << 10) - MIN_LOW_SURROGATE);
    }

    public static char highSurrogate(int point) {
        return (char) ((point >>> 10) + (MIN_HIGH_SURROGATE - (MIN_SUPPLEMENTARY_CODE_POINT >>> 10)));
    }

    public static char lowSurrogate(int point) {
        return (char) ((point & 0x3FF) + MIN_LOW_SURROGATE);
    }

    public static char[] toChars(int point) {
        if (!isValidCodePoint(point)) {
            throw new IllegalArgumentException(invalid(point));
        }
        return isBmpCodePoint(point) ? new char[] {(char) point} : new char[] {highSurrogate(point), lowSurrogate(point)};
    }

    private static String invalid(int point) {
        char[] digits = Digits.ofBits(point & 0xFFFFFFFFL, 4).toCharArray();
        for (int at = 0; at < digits.length; at++) {
            digits[at] = (char) toUpperCase((int) digits[at]);
        }
        return "Not a valid Unicode code point: 0x".concat(new String(digits));
    }

    public static int toChars(int point, char[] target, int at) {
        char[] units = toChars(point);
        if (units.length == 2) {
            target[at + 1] = units[1];
        }
        target[at] = units[0];
        return units.length;
    }

    public static int codePointAt(CharSequence text, int index) {
        char high = text.charAt(index);
        if (isHighSurrogate(high) && index + 1 < text.length()) {
            char low = text.charAt(index + 1);
            if (isLowSurrogate(low)) {
                return toCodePoint(high, low);
            }
        }
        return high;
    }

    public static int codePointAt(char[] units, int index) {
        return pointAt(units, index, units.length);
    }

    public static int codePointAt(char[] units, int index, int limit) {
        if (index >= limit || limit < 0 || limit > units.length) {
            throw new IndexOutOfBoundsException();
        }
        return pointAt(units, index, limit);
    }

    private static int pointAt(char[] units, int index, int limit) {
        char high = units[index];
        return isHighSurrogate(high) && index + 1 < limit && isLowSurrogate(units[index + 1]) ? toCodePoint(high, units[index + 1]) : high;
    }

    public static int codePointBefore(CharSequence text, int index) {
        char low = text.charAt(index - 1);
        if (isLowSurrogate(low) && index > 1) {
            char high = text.charAt(index - 2);
            if (isHighSurrogate(high)) {
                return toCodePoint(high, low);
            }
        }
        return low;
    }

    public static int codePointBefore(char[] units, int index) {
        return pointBefore(units, index, 0);
    }

    public static int codePointBefore(char[] units, int index, int start) {
        if (index <= start || start < 0 || start >= units.length) {
            throw new IndexOutOfBoundsException();
        }
        return pointBefore(units, index, start);
    }

    private static int pointBefore(char[] units, int index, int start) {
        char low = units[index - 1];
        return isLowSurrogate(low) && index - 1 > start && isHighSurrogate(units[index - 2]) ? toCodePoint(units[index - 2], low) : low;
    }

    public static int codePointCount(CharSequence text, int begin, int end) {
        int length = text.length();
        if (begin < 0 || begin > end || end > length) {
            throw new IndexOutOfBoundsException();
        }
        int count = 0;
        for (int at = begin; at < end; at++) {
            count++;
            if (isHighSurrogate(text.charAt(at)) && at + 1 < end && isLowSurrogate(text.charAt(at + 1))) {
                at++;
            }
        }
        return count;
    }

    public static int codePointCount(char[] units, int offset, int length) {
        if (length > units.length - offset || offset < 0 || length < 0) {
            throw new IndexOutOfBoundsException();
        }
        return codePointCount(new String(units), offset, offset + length);
    }

    public static int offsetByCodePoints(CharSequence text, int index, int count) {
        int length = text.length();
        if (index < 0 || index > length) {
            throw new IndexOutOfBoundsException();
        }
        int at = index;
        int left = count;
        for (; left > 0 && at < length; left--) {
            at += isHighSurrogate(text.charAt(at)) && at + 1 < length && isLowSurrogate(text.charAt(at + 1)) ? 2 : 1;
        }
        for (; left < 0 && at > 0; left++) {
            at -= isLowSurrogate(text.charAt(at - 1)) && at > 1 && isHighSurrogate(text.charAt(at - 2)) ? 2 : 1;
        }
        if (left != 0) {
            throw new IndexOutOfBoundsException();
        }
        return at;
    }
}
