import java.io.ByteArrayInputStream;
import java.io.ByteArrayOutputStream;
import java.io.IOException;
import java.io.InputStreamReader;
import java.io.OutputStreamWriter;
import java.io.Reader;
import java.io.Writer;
import java.nio.charset.Charset;
import java.nio.charset.StandardCharsets;
import java.util.Locale;

/** Texts as bytes, and letters in locales. */
public class Main {
    static boolean LATIN;
    static boolean ASCII;
    static boolean WIDE;
    static boolean PART;
    static boolean NULLS;

    static Charset charset() {
        return LATIN ? StandardCharsets.ISO_8859_1 : ASCII ? StandardCharsets.US_ASCII : Charset.forName("utf-8");
    }

    public static void main(String[] args) throws IOException {
        Charset charset = charset();
        String text = WIDE ? "na\u00efve \u20ac \ud83d\ude00 \ud83d." : "plain Text";
        byte[] bytes = text.getBytes(charset);
        StringBuilder said = new StringBuilder();
        for (byte each : bytes) {
            said.append(each).append(' ');
        }
        System.out.println(charset + " " + said + charset.name().length() + charset.equals(StandardCharsets.UTF_8) + charset.compareTo(StandardCharsets.UTF_8));
        String back = PART ? new String(bytes, 1, 3, charset) : new String(bytes, charset);
        System.out.println(back + " " + back.length());
        System.out.println(new String(new byte[] {65, -61, -65, 66}, charset));
        System.out.println(text.substring(0, 5).toUpperCase(Locale.ENGLISH) + text.substring(0, 5).toLowerCase(Locale.ROOT) + String.format(Locale.US, "%,d|%5s", 1234567, text.length()));
        System.out.println(Locale.US + " " + Locale.ENGLISH + " " + Locale.UK.getCountry() + Locale.ROOT.getLanguage() + Locale.US.equals(Locale.UK));
        ByteArrayOutputStream out = new ByteArrayOutputStream();
        try (Writer writer = new OutputStreamWriter(out, StandardCharsets.UTF_8)) {
            writer.write(text);
        }
        try (Reader reader = new InputStreamReader(new ByteArrayInputStream(out.toByteArray()), StandardCharsets.UTF_8)) {
            int sum = 0;
            for (int unit = reader.read(); unit >= 0; unit = reader.read()) {
                sum = 31 * sum + unit;
            }
            System.out.println(out.size() + " " + (sum == text.hashCode()));
        }
        System.out.println(back.substring(0, 2).toUpperCase(NULLS ? null : Locale.ROOT).length());
    }
}
