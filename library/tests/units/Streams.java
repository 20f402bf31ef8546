import java.io.BufferedReader;
import java.io.BufferedWriter;
import java.io.ByteArrayInputStream;
import java.io.ByteArrayOutputStream;
import java.io.IOException;
import java.io.InputStream;
import java.io.InputStreamReader;
import java.io.OutputStream;
import java.io.OutputStreamWriter;
import java.io.PrintWriter;
import java.io.Reader;
import java.io.StringReader;
import java.io.StringWriter;
import java.io.Writer;

/**
 * Random calls of readers and writers, as a seed decides, with what each asks of the one below it.
 *
 *   java Streams SEED ROUNDS
 *
 * It writes a line for each round. The same class runs over the Java machine's readers and writers and, renamed, over the library's: both write the same.
 */
public final class Streams {
    private static final String TEXT = "one\ntwo\r\nthree\rfour\n\nf\u00efve\r\r\n\u20acsix and seven and eight\nlast";
    private static StringBuilder log;
    private static long state;

    private static int next(int bound) {
        state = state * 6364136223846793005L + 1442695040888963407L;
        return (int) ((state >>> 33) % bound);
    }

    /** A reader that gives a few units at a time, and writes down what it is asked. */
    private static final class Source extends Reader {
        private final String text;
        private int at;

        Source(String text) {
            this.text = text;
        }

        @Override
        public int read(char[] target, int offset, int length) throws IOException {
            int count = Math.min(Math.min(length, 1 + next(6)), text.length() - at);
            log.append("[r ").append(offset).append(' ').append(length).append(' ').append(count).append(']');
            if (next(60) == 0) {
                throw new IOException("fault");
            }
            if (at == text.length()) {
                return -1;
            }
            System.arraycopy(text.toCharArray(), at, target, offset, count);
            at += count;
            return count;
        }

        @Override
        public boolean ready() {
            return at % 3 != 0;
        }

        @Override
        public void close() {
            log.append("[close]");
        }
    }

    private static final class Bytes extends InputStream {
        private final byte[] bytes;
        private int at;

        Bytes(byte[] bytes) {
            this.bytes = bytes;
        }

        @Override
        public int read() {
            log.append("[b]");
            return at == bytes.length ? -1 : bytes[at++] & 255;
        }

        @Override
        public int read(byte[] target, int offset, int length) {
            int count = Math.min(Math.min(length, 1 + next(6)), bytes.length - at);
            log.append("[b ").append(offset).append(' ').append(length).append(' ').append(count).append(']');
            if (at == bytes.length) {
                return -1;
            }
            System.arraycopy(bytes, at, target, offset, count);
            at += count;
            return count;
        }

        @Override
        public int available() {
            return at % 3;
        }
    }

    private static final class Target extends Writer {
        @Override
        public void write(char[] units, int offset, int length) throws IOException {
            log.append("[w ").append(new String(units).substring(offset, offset + length)).append(']');
            if (next(40) == 0) {
                throw new IOException("fault");
            }
        }

        @Override
        public void flush() {
            log.append("[flush]");
        }

        @Override
        public void close() {
            log.append("[close]");
        }
    }

    private static final class Octets extends OutputStream {
        @Override
        public void write(int octet) {
            log.append("[o ").append(octet & 255).append(']');
        }

        @Override
        public void write(byte[] bytes, int offset, int length) {
            int sum = 0;
            for (int at = offset; at < offset + length; at++) {
                sum = sum * 31 + bytes[at];
            }
            log.append("[o ").append(length).append(' ').append(sum).append(']');
        }
    }

    private static void read(Reader in) throws IOException {
        char[] units = new char[12];
        switch (next(9)) {
            case 0:
            case 1:
                log.append("read ").append(in.read());
                break;
            case 2:
                int offset = next(4);
                int count = in.read(units, offset, next(14) - 1);
                log.append("some ").append(count).append(' ').append(units, 0, 12);
                break;
            case 3:
            case 4:
                if (in instanceof BufferedReader) {
                    log.append("line ").append(((BufferedReader) in).readLine());
                }
                break;
            case 5:
                log.append("skip ").append(in.skip(next(7)));
                break;
            case 6:
                log.append("mark ");
                in.mark(next(20));
                break;
            case 7:
                log.append("reset ");
                in.reset();
                break;
            default:
                log.append("ready ").append(in.ready());
                if (next(30) == 0) {
                    in.close();
                }
        }
    }

    private static void write(Writer out) throws IOException {
        String text = TEXT.substring(next(20), 20 + next(20));
        switch (next(8)) {
            case 0:
                out.write('c');
                break;
            case 1:
                out.write(text);
                break;
            case 2:
                out.write(text, next(3), next(30) - 1);
                break;
            case 3:
                out.write(text.toCharArray(), next(3), next(30) - 1);
                break;
            case 4:
                out.append('a').append(next(2) == 0 ? null : text).append(text, next(2), 2 + next(3));
                break;
            case 5:
                out.flush();
                break;
            case 6:
                if (out instanceof PrintWriter) {
                    ((PrintWriter) out).printf("%5d|%-4s|", next(100), "x").println(text);
                    log.append(((PrintWriter) out).checkError());
                } else if (out instanceof BufferedWriter) {
                    ((BufferedWriter) out).newLine();
                }
                break;
            default:
                if (next(20) == 0) {
                    out.close();
                }
                out.write(new char[next(4) == 0 ? 5000 : 3]);
        }
    }

    private static Reader reader() throws IOException {
        switch (next(4)) {
            case 0:
                return new StringReader(TEXT);
            case 1:
                return new BufferedReader(new StringReader(TEXT), 1 + next(9));
            case 2:
                return new InputStreamReader(next(2) == 0 ? new Bytes(utf8()) : new ByteArrayInputStream(utf8()), "UTF-8");
            default:
                return new BufferedReader(new Source(TEXT), 1 + next(9));
        }
    }

    private static byte[] utf8() throws IOException {
        ByteArrayOutputStream bytes = new ByteArrayOutputStream(next(40));
        Writer out = new OutputStreamWriter(bytes, "UTF-8");
        out.write(TEXT + "\ud83d\ude00 end");
        out.close();
        log.append(bytes.size()).append(' ');
        return bytes.toByteArray();
    }

    private static Writer writer() throws IOException {
        switch (next(6)) {
            case 0:
                return new StringWriter();
            case 1:
                return new BufferedWriter(new Target(), 1 + next(12));
            case 2:
                return new PrintWriter(new Target(), next(2) == 0);
            case 3:
                return new PrintWriter(new BufferedWriter(new Target(), 1 + next(12)), next(2) == 0);
            case 4:
                return new PrintWriter(new Octets(), next(2) == 0);
            default:
                return new OutputStreamWriter(new Octets(), "UTF-8");
        }
    }

    private static void round() throws IOException {
        boolean reads = next(2) == 0;
        Reader in = reads ? reader() : null;
        Writer out = reads ? null : writer();
        for (int call = 0; call < 25; call++) {
            log.append(" / ");
            try {
                if (reads) {
                    read(in);
                } else {
                    write(out);
                }
            } catch (IOException | RuntimeException e) {
                String name = e.getClass().getName();
                log.append(name.substring(name.lastIndexOf('.') + 1)).append(e instanceof IOException ? e.getMessage() : "");
            }
        }
        log.append(" : ").append(out instanceof StringWriter ? out.toString() : "");
    }

    public static void main(String[] words) throws IOException {
        for (int round = 0; round < Integer.parseInt(words[1]); round++) {
            state = Long.parseLong(words[0]) * 1_000_003 + round * 0x9E3779B97F4A7C15L;
            log = new StringBuilder();
            round();
            String line = log.toString();
            StringBuilder shown = new StringBuilder();
            for (int at = 0; at < line.length(); at++) {
                char unit = line.charAt(at);
                shown.append(unit >= ' ' && unit < 127 ? String.valueOf(unit) : "<" + (int) unit + ">");
            }
            System.out.println(shown);
        }
    }
}
