package java.nio.charset;

/** The charsets that each Java machine has, but for those of sixteen bits. */
public final class StandardCharsets {
    public static final Charset US_ASCII = new Standard("US-ASCII");
    public static final Charset ISO_8859_1 = new Standard("ISO-8859-1");
    public static final Charset UTF_8 = new Standard("UTF-8");

    private StandardCharsets() {
    }

    private static final class Standard extends Charset {
        Standard(String name) {
            super(name);
        }
    }
}
