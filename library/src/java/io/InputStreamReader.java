package java.io;

import java.nio.charset.Charset;
import java.nio.charset.StandardCharsets;
import varexj.lang.StringMembers;
import varexj.lang.Utf8;

/** As in the class library, in UTF-8: it asks what is below for 8,192 bytes at a time. Bytes that are no UTF-8 end the run. */
public class InputStreamReader extends Reader {
    private final InputStream in;
    private final byte[] bytes = new byte[8192];
    private int next;
    private int end;
    private int low = -1;
    private boolean closed;

    public InputStreamReader(InputStream in) {
        super(in);
        this.in = in;
    }

    public InputStreamReader(InputStream in, String charset) throws UnsupportedEncodingException {
        this(in);
        if (!StringMembers.equalsIgnoreCase("UTF-8", charset)) {
            otherCharset(charset);
        }
    }

    public InputStreamReader(InputStream in, Charset charset) {
        this(in);
        if (!charset.equals(StandardCharsets.UTF_8)) {
            otherCharset(charset.name());
        }
    }

    private static native void otherCharset(String charset);

    private void ensureOpen() throws IOException {
        if (closed) {
            throw new IOException("Stream closed");
        }
    }

    /** Reads bytes behind those that are there; false where there are no more. */
    private boolean fill() throws IOException {
        System.arraycopy(bytes, next, bytes, 0, end - next);
        end -= next;
        next = 0;
        int read = in.read(bytes, end, bytes.length - end);
        if (read == 0) {
            throw new IOException("Underlying input stream returned zero bytes");
        }
        end += Math.max(read, 0);
        return read > 0;
    }

    /** How many bytes the code point has whose first byte this is. */
    private static int length(byte first) {
        return first >= 0 ? 1 : first >> 5 == -2 ? 2 : first >> 4 == -2 ? 3 : 4;
    }

    /** One unit; a second one that comes with it is kept. */
    @Override
    public int read() throws IOException {
        if (low >= 0) {
            int unit = low;
            low = -1;
            return unit;
        }
        ensureOpen();
        char[] two = new char[2];
        int read = readSome(two, 0, 2);
        if (read < 0) {
            return -1;
        }
        if (read == 2) {
            low = two[1];
        }
        return two[0];
    }

    @Override
    public int read(char[] target, int offset, int count) throws IOException {
        ensureOpen();
        StringReader.checkPart(offset, count, target.length);
        if (count == 0) {
            return 0;
        }
        int kept = 0;
        if (low >= 0) {
            target[offset] = (char) low;
            low = -1;
            kept = 1;
            if (count == 1 || !isMoreThere()) {
                return 1;
            }
        }
        if (count - kept == 1) {
            int unit = read();
            if (unit < 0) {
                return kept == 0 ? -1 : kept;
            }
            target[offset + kept] = (char) unit;
            return kept + 1;
        }
        int read = readSome(target, offset + kept, count - kept);
        return read < 0 ? kept == 1 ? 1 : -1 : kept + read;
    }

    private boolean isMoreThere() throws IOException {
        return next < end || in.available() > 0;
    }

    /** Units from two on: those that are there, and more only where none was or what is below has some at once. */
    private int readSome(char[] target, int offset, int count) throws IOException {
        int read = 0;
        while (read < count) {
            if (next >= end || next + length(bytes[next]) > end) {
                if (read > 0 && in.available() <= 0) {
                    break;
                }
                if (!fill()) {
                    if (next < end) {
                        Utf8.text(bytes, next, end - next);
                    }
                    return read == 0 ? -1 : read;
                }
                continue;
            }
            int length = length(bytes[next]);
            if (length == 1) {
                target[offset + read] = (char) bytes[next];
            } else {
                String text = Utf8.text(bytes, next, length);
                int units = text.length();
                if (units > count - read) {
                    break;
                }
                target[offset + read] = text.charAt(0);
                if (units == 2) {
                    read++;
                    target[offset + read] = text.charAt(1);
                }
            }
            read++;
            next += length;
        }
        return read;
    }

    @Override
    public boolean ready() throws IOException {
        ensureOpen();
        return low >= 0 || isMoreThere();
    }

    @Override
    public void close() throws IOException {
        if (!closed) {
            closed = true;
            in.close();
        }
    }
}
