package varexj.lang;

/** A part of a pattern: a fixed text or a conversion; the parts of a pattern are linked. */
final class FormatPart {
    FormatPart next;
    /** The text, or null for a conversion. */
    String fixed;
    /** The number of the value from 1 on; 0 for the next one; -1 for the one before. */
    int index;
    String flags = "";
    int width = -1;
    int precision = -1;
    /** In lower case. */
    char conversion;
    boolean upper;

    FormatPart() {
    }

    boolean has(char flag) {
        return flags.indexOf(flag) >= 0;
    }

    /** The parts of a pattern, or null where it is empty. */
    static FormatPart parse(String pattern) {
        FormatPart head = new FormatPart();
        FormatPart end = head;
        String rest = pattern;
        while (!rest.isEmpty()) {
            int sign = rest.indexOf('%');
            FormatPart part = new FormatPart();
            if (sign == 0) {
                rest = rest.substring(part.read(rest));
            } else {
                part.fixed = sign < 0 ? rest : rest.substring(0, sign);
                rest = sign < 0 ? "" : rest.substring(sign);
            }
            end.next = part;
            end = part;
        }
        return head.next;
    }

    /** Reads the conversion at the front of a text, and says how long it is. */
    private int read(String text) {
        int at = 1;
        int digits = digits(text, at);
        if (digits > at && unit(text, digits) == '$') {
            index = number(text, at, digits);
            at = digits + 1;
            if (index == 0) {
                Format.refused("index");
            }
        }
        int begin = at;
        while ("-#+ 0,(<".indexOf(unit(text, at)) >= 0) {
            at++;
        }
        setFlags(text.substring(begin, at));
        digits = digits(text, at);
        if (digits > at) {
            width = number(text, at, digits);
            at = digits;
        }
        if (unit(text, at) == '.') {
            digits = digits(text, at + 1);
            precision = number(text, at + 1, digits);
            at = digits;
        }
        setConversion(unit(text, at));
        return at + 1;
    }

    private static char unit(String text, int at) {
        if (at >= text.length()) {
            Format.refused("conversion");
        }
        return text.charAt(at);
    }

    private static int digits(String text, int begin) {
        int at = begin;
        while (at < text.length() && text.charAt(at) >= '0' && text.charAt(at) <= '9') {
            at++;
        }
        return at;
    }

    private static int number(String text, int begin, int end) {
        if (begin == end || end - begin > 9) {
            Format.refused("number");
        }
        return Integer.parseInt(text.substring(begin, end));
    }

    private void setFlags(String found) {
        flags = found;
        int length = found.length();
        for (int at = 0; at < length; at++) {
            if (found.substring(at + 1).indexOf(found.charAt(at)) >= 0) {
                Format.refused("flag twice");
            }
        }
        if (has('<')) {
            if (index > 0) {
                Format.refused("index");
            }
            index = -1;
        }
    }

    private void setConversion(char found) {
        upper = found >= 'A' && found <= 'Z';
        conversion = upper ? (char) (found + 32) : found;
        String allowed = conversion == 'd' ? "-+ 0,(<" : conversion == 'x' || conversion == 'o' ? "-#0<" : "-<";
        if ("bhscdoxn%".indexOf(conversion) < 0 || upper && "don".indexOf(conversion) >= 0) {
            Format.refused("conversion");
        }
        for (int at = 0; at < flags.length(); at++) {
            if (allowed.indexOf(flags.charAt(at)) < 0) {
                Format.refused("flag");
            }
        }
        boolean integer = conversion == 'd' || conversion == 'x' || conversion == 'o';
        boolean general = conversion == 'b' || conversion == 'h' || conversion == 's';
        if (width < 0 && (has('-') || has('0')) || has('-') && has('0') || has('+') && has(' ') || precision >= 0 && !general) {
            Format.refused(integer ? "flags of an integer" : "flags");
        }
        if (conversion == 'n') {
            if (width >= 0 || !flags.isEmpty()) {
                Format.refused("width");
            }
            fixed = "\n";
        } else if (conversion == '%' && has('<')) {
            Format.refused("flag");
        }
    }
}
