package varexj.lang;

/**
 * A regular expression of a simple form: units, escaped units, classes as {@code \s} and {@code [a-z,;]}, each with {@code +}, {@code *} or {@code ?} or
 * without, such that no unit that one may take repeatedly could be the next one's. So matching never has to go back. Others end the run.
 */
final class Expression {
    private static final int MANY = 0x7FFFFFFF;

    private final Units[] units = new Units[32];
    private final int[] least = new int[32];
    private final int[] most = new int[32];
    private int count;
    /** The text that is matched, where that is one text. */
    private String literal;

    private Expression() {
    }

    /** The units that one place of an expression takes. */
    private static final class Units {
        long low;
        long high;
        boolean others;

        Units() {
        }

        void add(int unit) {
            if (unit < 64) {
                low |= 1L << unit;
            } else if (unit < 128) {
                high |= 1L << unit;
            } else {
                unknown("a unit past ASCII");
            }
        }

        void add(Units more) {
            low |= more.low;
            high |= more.high;
            others |= more.others;
        }

        void turn() {
            low = ~low;
            high = ~high;
            others = !others;
        }

        boolean has(char unit) {
            if (unit < 128) {
                return ((unit < 64 ? low : high) >>> unit & 1) != 0;
            }
            if (others && unit >= 0xD800 && unit <= 0xDFFF) {
                unknown("a surrogate");
            }
            return others;
        }

        boolean meets(Units more) {
            return (low & more.low) != 0 || (high & more.high) != 0 || others && more.others;
        }
    }

    static native void unknown(String why);

    // ---- reading

    static Expression of(String text) {
        Expression read = new Expression();
        if (!read.isLiteral(text)) {
            read.readAll(text);
            read.checkNoWayBack();
        }
        return read;
    }

    private boolean isLiteral(String text) {
        StringBuilder units = new StringBuilder();
        int length = text.length();
        for (int at = 0; at < length; at++) {
            char unit = text.charAt(at);
            if (unit == '\\' && at + 1 < length && isPunctuation(text.charAt(at + 1))) {
                at++;
                unit = text.charAt(at);
            } else if ("\\[](){}.*+?^$|".indexOf(unit) >= 0 && unit != ']' && unit != '}') {
                return false;
            }
            if (Character.isSurrogate(unit)) {
                unknown("a surrogate");
            }
            units.append(unit);
        }
        literal = units.toString();
        return length > 0;
    }

    private static boolean isPunctuation(char unit) {
        return unit >= 32 && unit < 127 && !Character.isLetterOrDigit(unit);
    }

    private void readAll(String text) {
        literal = null;
        int at = 0;
        while (at < text.length()) {
            if (count == units.length) {
                unknown("a long expression");
            }
            Units taken = new Units();
            at = readUnits(text, at, taken);
            char sign = at < text.length() ? text.charAt(at) : ' ';
            boolean counted = sign == '+' || sign == '*' || sign == '?';
            units[count] = taken;
            least[count] = sign == '*' || sign == '?' ? 0 : 1;
            most[count] = sign == '+' || sign == '*' ? MANY : 1;
            count++;
            at += counted ? 1 : 0;
            if (counted && at < text.length() && "+*?{".indexOf(text.charAt(at)) >= 0) {
                unknown("a way of counting");
            }
        }
    }

    private int readUnits(String text, int at, Units taken) {
        char unit = text.charAt(at);
        if (unit == '[') {
            return readClass(text, at + 1, taken);
        }
        if (unit == '\\') {
            readEscape(at + 1 < text.length() ? text.charAt(at + 1) : 0, taken);
            return at + 2;
        }
        if ("(){*+?^$|.".indexOf(unit) >= 0) {
            unknown("a sign");
        }
        taken.add(unit);
        return at + 1;
    }

    private static void readEscape(char unit, Units taken) {
        if (isPunctuation(unit)) {
            taken.add(unit);
            return;
        }
        switch (unit) {
            case 't':
                taken.add('\t');
                break;
            case 'n':
                taken.add('\n');
                break;
            case 'r':
                taken.add('\r');
                break;
            case 'f':
                taken.add('\f');
                break;
            case 's':
            case 'S':
                addRange(9, 13, taken);
                taken.add(' ');
                break;
            case 'd':
            case 'D':
                addRange('0', '9', taken);
                break;
            case 'w':
            case 'W':
                addRange('0', '9', taken);
                addRange('A', 'Z', taken);
                addRange('a', 'z', taken);
                taken.add('_');
                break;
            default:
                unknown("an escape");
        }
        if (unit == 'S' || unit == 'D' || unit == 'W') {
            taken.turn();
        }
    }

    private static void addRange(int first, int last, Units taken) {
        for (int unit = first; unit <= last; unit++) {
            taken.add(unit);
        }
    }

    private static int readClass(String text, int begin, Units taken) {
        int at = begin;
        boolean turned = at < text.length() && text.charAt(at) == '^';
        at += turned ? 1 : 0;
        int first = at;
        while (at < text.length() && (text.charAt(at) != ']' || at == first)) {
            char unit = text.charAt(at);
            if (unit == '[' || unit == '&' || unit == '^' || unit == ']') {
                unknown("a class");
            }
            if (unit == '\\') {
                Units escaped = new Units();
                readEscape(at + 1 < text.length() ? text.charAt(at + 1) : 0, escaped);
                taken.add(escaped);
                at += 2;
            } else if (at + 2 < text.length() && text.charAt(at + 1) == '-' && text.charAt(at + 2) != ']') {
                char last = text.charAt(at + 2);
                if (last == '\\' || last == '[' || last < unit) {
                    unknown("a class");
                }
                addRange(unit, last, taken);
                at += 3;
            } else {
                taken.add(unit);
                at++;
            }
        }
        if (at >= text.length() || at == first) {
            unknown("a class");
        }
        if (turned) {
            taken.turn();
        }
        return at + 1;
    }

    /** That no place which may take more or fewer units could take what the places behind it begin with. */
    private void checkNoWayBack() {
        for (int place = 0; place < count; place++) {
            boolean open = least[place] != most[place];
            for (int next = place + 1; open && next < count; next++) {
                if (units[place].meets(units[next])) {
                    unknown("a way back");
                }
                open = least[next] == 0;
            }
        }
    }

    // ---- matching

    /** The end of the match that begins at a place of a text, or -1. */
    private int end(String text, int begin) {
        if (literal != null) {
            return StringMembers.startsWith(text, literal, begin) ? begin + literal.length() : -1;
        }
        int length = text.length();
        int at = begin;
        for (int place = 0; place < count; place++) {
            int taken = 0;
            while (taken < most[place] && at < length && units[place].has(text.charAt(at))) {
                at++;
                taken++;
            }
            if (taken < least[place]) {
                return -1;
            }
        }
        return at;
    }

    /** The next place from here on at which a match begins, or -1. */
    private int start(String text, int from) {
        if (literal != null) {
            return StringMembers.indexOf(text, literal, from);
        }
        int length = text.length();
        for (int at = from; at <= length; at++) {
            if (end(text, at) >= 0) {
                return at;
            }
        }
        return -1;
    }

    boolean matches(String text) {
        return literal != null ? text.equals(literal) : end(text, 0) == text.length();
    }

    /** An expression that takes nothing would also match between the two units of a pair. */
    private void checkPairs(String text, int begin, int end) {
        if (begin == end) {
            for (int at = 0; at < text.length(); at++) {
                if (Character.isSurrogate(text.charAt(at))) {
                    unknown("a surrogate");
                }
            }
        }
    }

    String[] split(String text, int limit) {
        String[] parts = new String[4];
        int size = 0;
        int index = 0;
        int from = 0;
        int length = text.length();
        while (from <= length && (limit <= 0 || size < limit - 1)) {
            int start = start(text, from);
            if (start < 0) {
                break;
            }
            int end = end(text, start);
            checkPairs(text, start, end);
            from = end == start ? end + 1 : end;
            if (end == start && start == 0) {
                continue;
            }
            parts = withRoom(parts, size);
            parts[size] = text.substring(index, start);
            size++;
            index = end;
        }
        if (index == 0) {
            return new String[] {text};
        }
        parts = withRoom(parts, size);
        parts[size] = text.substring(index);
        size++;
        while (limit == 0 && size > 0 && parts[size - 1].isEmpty()) {
            size--;
        }
        String[] exact = new String[size];
        System.arraycopy(parts, 0, exact, 0, size);
        return exact;
    }

    private static String[] withRoom(String[] parts, int size) {
        if (size < parts.length) {
            return parts;
        }
        String[] more = new String[2 * size];
        System.arraycopy(parts, 0, more, 0, size);
        return more;
    }

    String replace(String text, String now, boolean all) {
        StringBuilder replaced = new StringBuilder();
        int index = 0;
        int from = 0;
        boolean found = false;
        int start = start(text, 0);
        while (start >= 0) {
            int end = end(text, start);
            checkPairs(text, start, end);
            replaced.append(text.substring(index, start));
            putReplacement(replaced, now, text.substring(start, end));
            found = true;
            index = end;
            from = end == start ? end + 1 : end;
            start = all && from <= text.length() ? start(text, from) : -1;
        }
        return found ? replaced.append(text.substring(index)).toString() : text;
    }

    private static void putReplacement(StringBuilder replaced, String now, String match) {
        if (now.indexOf('\\') < 0 && now.indexOf('$') < 0) {
            replaced.append(now);
            return;
        }
        int length = now.length();
        for (int at = 0; at < length; at++) {
            char unit = now.charAt(at);
            if (unit == '\\') {
                at++;
                if (at == length) {
                    throw new IllegalArgumentException("character to be escaped is missing");
                }
                replaced.append(now.charAt(at));
            } else if (unit == '$') {
                at++;
                if (at == length || now.charAt(at) != '0' || at + 1 < length && now.charAt(at + 1) >= '0' && now.charAt(at + 1) <= '9') {
                    unknown("a group");
                }
                replaced.append(match);
            } else {
                replaced.append(unit);
            }
        }
    }
}
