package varexj.lang;

import java.nio.charset.Charset;
import java.nio.charset.StandardCharsets;

/** Texts as bytes in each charset that is here. */
final class Octets {
    private static final char REPLACED = '\uFFFD';

    private Octets() {
    }

    /** How many units the charset has, each of them a byte; 0 where it is UTF-8. */
    private static int units(Charset charset) {
        return charset.equals(StandardCharsets.UTF_8) ? 0 : charset.equals(StandardCharsets.ISO_8859_1) ? 256 : 128;
    }

    /** The bytes of a text; what the charset doesn't have is a question mark, a pair of surrogates one. */
    static byte[] of(String text, Charset charset) {
        int units = units(charset);
        if (units == 0) {
            return Utf8.bytes(text);
        }
        int length = text.length();
        byte[] bytes = new byte[length];
        int count = 0;
        for (int at = 0; at < length; at++) {
            char unit = text.charAt(at);
            if (unit >= 0xD800 && unit <= 0xDBFF && at + 1 < length && text.charAt(at + 1) >= 0xDC00 && text.charAt(at + 1) <= 0xDFFF) {
                at++;
            }
            bytes[count++] = (byte) (unit < units ? unit : '?');
        }
        byte[] exact = new byte[count];
        System.arraycopy(bytes, 0, exact, 0, count);
        return exact;
    }

    /** The text of bytes. */
    static String text(byte[] bytes, int offset, int count, Charset charset) {
        int units = units(charset);
        if (units == 0) {
            return Utf8.text(bytes, offset, count);
        }
        char[] text = new char[count];
        for (int at = 0; at < count; at++) {
            int octet = bytes[offset + at] & 255;
            text[at] = octet < units ? (char) octet : REPLACED;
        }
        return new String(text);
    }
}
