package varexj.lang;

/** Texts as bytes in UTF-8 (RFC 3629). */
public final class Utf8 {
    private Utf8() {
    }

    /** The bytes of a text; a surrogate without its partner is a question mark. */
    public static byte[] bytes(String text) {
        int length = text.length();
        byte[] bytes = new byte[3 * length];
        int count = 0;
        for (int at = 0; at < length; at++) {
            int point = text.charAt(at);
            if (point >= 0xD800 && point <= 0xDFFF) {
                if (point <= 0xDBFF && at + 1 < length && text.charAt(at + 1) >= 0xDC00 && text.charAt(at + 1) <= 0xDFFF) {
                    at++;
                    point = 0x10000 + (point - 0xD800 << 10) + text.charAt(at) - 0xDC00;
                } else {
                    point = '?';
                }
            }
            if (point < 0x80) {
                bytes[count++] = (byte) point;
            } else {
                if (point < 0x800) {
                    bytes[count++] = (byte) (0xC0 | point >> 6);
                } else {
                    if (point < 0x10000) {
                        bytes[count++] = (byte) (0xE0 | point >> 12);
                    } else {
                        bytes[count++] = (byte) (0xF0 | point >> 18);
                        bytes[count++] = (byte) (0x80 | point >> 12 & 0x3F);
                    }
                    bytes[count++] = (byte) (0x80 | point >> 6 & 0x3F);
                }
                bytes[count++] = (byte) (0x80 | point & 0x3F);
            }
        }
        byte[] exact = new byte[count];
        System.arraycopy(bytes, 0, exact, 0, count);
        return exact;
    }

    /** The text of bytes that are UTF-8; others end the run. */
    public static String text(byte[] bytes, int offset, int count) {
        char[] units = new char[count];
        int length = 0;
        int end = offset + count;
        int at = offset;
        while (at < end) {
            int first = bytes[at];
            int more = first >= 0 ? 0 : first >> 5 == -2 ? 1 : first >> 4 == -2 ? 2 : first >> 3 == -2 ? 3 : -1;
            int point = more == 0 ? first : first & 0x3F >> more;
            if (more < 0 || at + more >= end) {
                replaced(bytes, at);
            }
            for (int next = 1; next <= more; next++) {
                int octet = bytes[at + next];
                if (octet >> 6 != -2) {
                    replaced(bytes, at);
                }
                point = point << 6 | octet & 0x3F;
            }
            if (more > 0 && point < (more == 1 ? 0x80 : more == 2 ? 0x800 : 0x10000) || point >= 0xD800 && point <= 0xDFFF || point > 0x10FFFF) {
                replaced(bytes, at);
            }
            if (point < 0x10000) {
                units[length++] = (char) point;
            } else {
                units[length++] = (char) (0xD7C0 + (point >> 10));
                units[length++] = (char) (0xDC00 | point & 0x3FF);
            }
            at += more + 1;
        }
        return StringMembers.init(units, 0, length);
    }

    private static native void replaced(byte[] bytes, int at);
}
