package varexj.lang;

/**
 * Texts by a pattern, with the conversions b, h, s, c, d, o, x, n and the per cent sign. Another conversion, a pattern or a value that a Java machine refuses,
 * ends the run. Numbers are written as in English. Who extends it says where the pieces go, one by one, so that what stands before a fault is written.
 */
public abstract class Format {
    private int ordinary;
    private int last = -1;

    protected Format() {
    }

    private static final class Text extends Format {
        final StringBuilder text = new StringBuilder();

        Text() {
        }

        @Override
        protected void put(String piece) {
            text.append(piece);
        }

        @Override
        protected void fill() {
            text.append(' ');
        }
    }

    /** {@code String.format(pattern, values)}. */
    public static String format(String pattern, Object[] values) {
        Text made = new Text();
        made.write(pattern, values);
        return made.text.toString();
    }

    /** Takes the next piece. */
    protected abstract void put(String piece);

    /** Takes a space that fills up. */
    protected abstract void fill();

    /** Hands out the pieces of the text. */
    public final void write(String pattern, Object[] values) {
        for (FormatPart part = FormatPart.parse(pattern); part != null; part = part.next) {
            if (part.fixed != null) {
                put(part.fixed);
            } else {
                putPadded(part, part.conversion == '%' ? "%" : converted(part, values));
            }
        }
    }

    private void putPadded(FormatPart part, String piece) {
        int missing = part.width - piece.length();
        if (part.has('-')) {
            put(piece);
        }
        for (int at = 0; at < missing; at++) {
            fill();
        }
        if (!part.has('-')) {
            put(piece);
        }
    }

    private Object value(FormatPart part, Object[] values) {
        if (part.index > 0) {
            last = part.index - 1;
        } else if (part.index == 0) {
            last = ordinary;
            ordinary++;
        }
        if (last < 0 || values != null && last >= values.length) {
            refused("missing argument");
        }
        return values == null ? null : values[last];
    }

    private String converted(FormatPart part, Object[] values) {
        Object value = value(part, values);
        switch (part.conversion) {
            case 'b':
                return general(part, value == null ? "false" : value instanceof Boolean ? value.toString() : "true");
            case 's':
                return general(part, value == null ? "null" : ObjectMembers.toString(value));
            case 'h':
                return general(part, value == null ? "null" : IntegerMembers.toHexString(ObjectMembers.hashCode(value)));
            case 'c':
                return general(part, value == null ? "null" : unit(value));
            default:
                return value == null ? general(part, "null") : integer(part, value);
        }
    }

    private static String unit(Object value) {
        if (value instanceof Character) {
            return value.toString();
        }
        if (!(value instanceof Integer || value instanceof Short || value instanceof Byte)) {
            refused("argument of c");
        }
        int point = ((Number) value).intValue();
        if (!Character.isValidCodePoint(point)) {
            refused("argument of c");
        }
        return Character.toString(point);
    }

    /** A text cut to the precision, and in upper case where it is asked for. */
    private static String general(FormatPart part, String whole) {
        String cut = part.precision >= 0 && part.precision < whole.length() ? whole.substring(0, part.precision) : whole;
        return part.upper ? StringMembers.toUpperCase(cut) : cut;
    }

    private static String integer(FormatPart part, Object value) {
        int bits = value instanceof Integer ? 32 : value instanceof Long ? 64 : value instanceof Short ? 16 : value instanceof Byte ? 8 : 0;
        if (bits == 0) {
            refused("argument of d");
        }
        long number = ((Number) value).longValue();
        if (part.conversion == 'd') {
            return decimal(part, number);
        }
        long positive = bits < 64 ? number & (1L << bits) - 1 : number;
        boolean octal = part.conversion == 'o';
        String digits = Digits.ofBits(positive, octal ? 3 : 4);
        String prefix = part.has('#') ? octal ? "0" : "0x" : "";
        int zeros = part.has('0') ? part.width - digits.length() - prefix.length() : 0;
        String all = prefix.concat(zeros > 0 ? StringMembers.repeat("0", zeros) : "").concat(digits);
        return part.upper ? StringMembers.toUpperCase(all) : all;
    }

    private static String decimal(FormatPart part, long number) {
        String spelled = String.valueOf(number);
        String digits = number < 0 ? spelled.substring(1) : spelled;
        if (part.has(',')) {
            StringBuilder grouped = new StringBuilder();
            int length = digits.length();
            for (int at = 0; at < length; at++) {
                if (at > 0 && (length - at) % 3 == 0) {
                    grouped.append(',');
                }
                grouped.append(digits.charAt(at));
            }
            digits = grouped.toString();
        }
        boolean parenthesised = number < 0 && part.has('(');
        String sign = number >= 0 ? part.has('+') ? "+" : part.has(' ') ? " " : "" : parenthesised ? "(" : "-";
        int zeros = part.has('0') ? part.width - digits.length() - sign.length() - (parenthesised ? 1 : 0) : 0;
        String all = sign.concat(zeros > 0 ? StringMembers.repeat("0", zeros) : "").concat(digits);
        return parenthesised ? all.concat(")") : all;
    }

    /** A pattern, or a value of it, that a Java machine refuses, or that isn't known here. */
    static native void refused(String why);
}
