package java.io;

import java.nio.charset.Charset;
import java.nio.charset.StandardCharsets;

import varexj.lang.Utf8;

/** As in the class library, in UTF-8: bytes come through at a flush, at the end, and where 8,192 of them are there. */
public class OutputStreamWriter extends Writer {
    private static final int ROOM = 8192;

    private final Object out;
    private final StringBuilder waiting = new StringBuilder();
    private int bytes;
    private boolean closed;

    public OutputStreamWriter(OutputStream out) {
        super(out);
        this.out = out;
    }

    public OutputStreamWriter(OutputStream out, String charset) throws UnsupportedEncodingException {
        this(out);
        if (!varexj.lang.StringMembers.equalsIgnoreCase("UTF-8", charset)) {
            otherCharset(charset);
        }
    }

    public OutputStreamWriter(OutputStream out, Charset charset) {
        this(out);
        if (!charset.equals(StandardCharsets.UTF_8)) {
            otherCharset(charset.name());
        }
    }

    /** A pair of units that may come to stand in two pieces of output. */
    private static native void splitPair(int unit);

    private static native void otherCharset(String charset);

    private void ensureOpen() throws IOException {
        if (closed) {
            throw new IOException("Stream closed");
        }
    }

    @Override
    public void write(int unit) throws IOException {
        ensureOpen();
        boolean half = unit >= 0xD800 && unit <= 0xDFFF;
        int size = unit < 0x80 ? 1 : unit < 0x800 || half ? 2 : 3;
        if (half && bytes + 4 > ROOM) {
            splitPair(unit);
        }
        if (bytes + size > ROOM) {
            pass();
        }
        waiting.append((char) unit);
        bytes += size;
    }

    @Override
    public void write(char[] units, int offset, int length) throws IOException {
        ensureOpen();
        StringReader.checkPart(offset, length, units.length);
        for (int at = 0; at < length; at++) {
            write(units[offset + at]);
        }
    }

    @Override
    public void write(String text, int offset, int length) throws IOException {
        if (length < 0) {
            throw new IndexOutOfBoundsException();
        }
        write(text.substring(offset, offset + length).toCharArray(), 0, length);
    }

    private void pass() throws IOException {
        String text = waiting.toString();
        waiting.setLength(0);
        bytes = 0;
        if (out instanceof PrintStream) {
            ((PrintStream) out).print(text);
        } else {
            byte[] all = Utf8.bytes(text);
            ((OutputStream) out).write(all, 0, all.length);
        }
    }

    @Override
    public void flush() throws IOException {
        ensureOpen();
        if (bytes > 0) {
            pass();
        }
        if (out instanceof PrintStream) {
            ((PrintStream) out).flush();
        } else {
            ((OutputStream) out).flush();
        }
    }

    @Override
    public void close() throws IOException {
        if (!closed) {
            flush();
            closed = true;
            if (out instanceof PrintStream) {
                varexj.lang.PrintStreamMembers.close((PrintStream) out);
            } else {
                ((OutputStream) out).close();
            }
        }
    }
}
