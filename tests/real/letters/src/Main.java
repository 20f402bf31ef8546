import java.io.BufferedReader;
import java.io.BufferedWriter;
import java.io.ByteArrayInputStream;
import java.io.ByteArrayOutputStream;
import java.io.IOException;
import java.io.InputStream;
import java.io.InputStreamReader;
import java.io.OutputStreamWriter;
import java.io.PrintWriter;
import java.io.Reader;
import java.io.StringReader;
import java.io.StringWriter;
import java.io.UncheckedIOException;
import java.io.Writer;

/** Letters that are written, wrapped, filtered and read again, all in memory. */
public class Main {
    static boolean BUFFERED;
    static boolean LOUD;
    static boolean NUMBERED;
    static boolean WRAPPED;
    static boolean DAMAGED;
    static boolean ACCENTS;

    /** Turns what goes through into capitals. */
    static class Capitals extends Writer {
        private final Writer out;

        Capitals(Writer out) {
            super(out);
            this.out = out;
        }

        @Override
        public void write(char[] units, int offset, int length) throws IOException {
            for (int at = offset; at < offset + length; at++) {
                out.write(Character.toUpperCase(units[at]));
            }
        }

        @Override
        public void flush() throws IOException {
            out.flush();
        }

        @Override
        public void close() throws IOException {
            System.out.println("capitals closed");
            out.close();
        }
    }

    /** Fails after so many units. */
    static class Damaged extends Reader {
        private final Reader in;
        private int left;

        Damaged(Reader in, int left) {
            this.in = in;
            this.left = left;
        }

        @Override
        public int read(char[] target, int offset, int length) throws IOException {
            if (left < length) {
                throw new IOException("damaged after " + left);
            }
            left -= length;
            return in.read(target, offset, length);
        }

        @Override
        public void close() throws IOException {
            System.out.println("damaged closed");
            in.close();
        }
    }

    static String letter() throws IOException {
        StringWriter text = new StringWriter();
        Writer inner = LOUD ? new Capitals(text) : text;
        Writer outer = BUFFERED ? new BufferedWriter(inner, 16) : inner;
        try (PrintWriter out = new PrintWriter(outer)) {
            out.println(ACCENTS ? "Ch\u00e8re Zo\u00eb," : "Dear Zoe,");
            out.printf("%d eggs at %5d cents, %-6s|%n", NUMBERED ? 12 : 6, 25L, LOUD ? "loud" : "calm");
            out.print("in all ");
            out.print(12 * 25L);
            out.print(' ');
            out.println(true);
            out.append("bye").append('!').append("abcdef", 2, 4).println();
        } catch (RuntimeException e) {
            System.out.println("writing: " + e);
        }
        return text.toString();
    }

    static int lines(String text) throws IOException {
        Reader source = new StringReader(text);
        int count = 0;
        try (BufferedReader in = new BufferedReader(DAMAGED ? new Damaged(source, NUMBERED ? 8192 : 9000) : source)) {
            for (String line = in.readLine(); line != null; line = in.readLine()) {
                count++;
                System.out.println((NUMBERED ? count + ": " : "") + (WRAPPED ? wrapped(line) : line));
            }
        }
        return count;
    }

    static String wrapped(String line) {
        StringBuffer made = new StringBuffer();
        int column = 0;
        for (int at = 0; at < line.length(); at++) {
            char unit = line.charAt(at);
            if (column >= 8 && Character.isWhitespace(unit)) {
                made.append("\n    ");
                column = 0;
            } else {
                made.append(unit);
                column++;
            }
        }
        return made.insert(0, '>').toString();
    }

    static void bytes(String text) throws IOException {
        ByteArrayOutputStream kept = new ByteArrayOutputStream();
        try (Writer out = new OutputStreamWriter(kept, "UTF-8")) {
            out.write(text, 0, 10);
            out.write('\u20ac');
        }
        byte[] all = kept.toByteArray();
        int sum = 0;
        for (byte octet : all) {
            sum = sum * 31 + octet;
        }
        System.out.println(all.length + " bytes " + sum);
        InputStream in = new ByteArrayInputStream(all);
        System.out.println((char) in.read() + " " + in.skip(1) + " " + in.available());
        Reader reader = new InputStreamReader(in, "UTF-8");
        StringBuilder read = new StringBuilder();
        for (int unit = reader.read(); unit >= 0; unit = reader.read()) {
            read.append((char) unit);
        }
        System.out.println(read);
    }

    static void marks() throws IOException {
        BufferedReader in = new BufferedReader(new StringReader("one\r\ntwo\rthree"));
        in.mark(100);
        System.out.println(in.readLine() + in.readLine());
        in.reset();
        char[] units = new char[8];
        System.out.println(in.read(units, 1, 4) + " " + (int) units[0] + units[1] + " " + in.skip(1) + in.readLine());
        in.close();
        try {
            in.read();
        } catch (IOException e) {
            System.out.println(e.getMessage());
        }
    }

    public static void main(String[] args) {
        try {
            String text = letter();
            System.out.println(lines(text) + " lines");
            bytes(text);
            marks();
        } catch (IOException e) {
            System.out.println("reading: " + e.getMessage());
            throw new UncheckedIOException(e);
        }
    }
}
