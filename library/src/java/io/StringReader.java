package java.io;

/** As in the class library. */
public class StringReader extends Reader {
    private String text;
    private final int length;
    private int next;
    private int marked;

    public StringReader(String text) {
        this.text = text;
        this.length = text.length();
    }

    private void ensureOpen() throws IOException {
        if (text == null) {
            throw new IOException("Stream closed");
        }
    }

    @Override
    public int read() throws IOException {
        ensureOpen();
        if (next >= length) {
            return -1;
        }
        int unit = text.charAt(next);
        next++;
        return unit;
    }

    @Override
    public int read(char[] target, int offset, int count) throws IOException {
        ensureOpen();
        checkPart(offset, count, target.length);
        if (count == 0) {
            return 0;
        }
        if (next >= length) {
            return -1;
        }
        int read = Math.min(length - next, count);
        System.arraycopy(text.substring(next, next + read).toCharArray(), 0, target, offset, read);
        next += read;
        return read;
    }

    static void checkPart(int offset, int count, int length) {
        if (offset < 0 || count < 0 || offset > length - count) {
            throw new IndexOutOfBoundsException("Range [" + offset + ", " + offset + " + " + count + ") out of bounds for length " + length);
        }
    }

    @Override
    public long skip(long count) throws IOException {
        ensureOpen();
        if (next >= length) {
            return 0;
        }
        long step = Math.max(-next, Math.min(length - next, count));
        next += (int) step;
        return step;
    }

    @Override
    public boolean ready() throws IOException {
        ensureOpen();
        return true;
    }

    @Override
    public boolean markSupported() {
        return true;
    }

    @Override
    public void mark(int limit) throws IOException {
        if (limit < 0) {
            throw new IllegalArgumentException("Read-ahead limit < 0");
        }
        ensureOpen();
        marked = next;
    }

    @Override
    public void reset() throws IOException {
        ensureOpen();
        next = marked;
    }

    @Override
    public void close() {
        text = null;
    }
}
