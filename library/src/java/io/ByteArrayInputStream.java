package java.io;

/** As in the class library. */
public class ByteArrayInputStream extends InputStream {
    protected byte[] buf;
    protected int pos;
    protected int mark;
    protected int count;

    public ByteArrayInputStream(byte[] bytes) {
        buf = bytes;
        count = bytes.length;
    }

    public ByteArrayInputStream(byte[] bytes, int offset, int length) {
        buf = bytes;
        pos = offset;
        count = Math.min(offset + length, bytes.length);
        mark = offset;
    }

    @Override
    public int read() {
        if (pos >= count) {
            return -1;
        }
        int octet = buf[pos] & 255;
        pos++;
        return octet;
    }

    @Override
    public int read(byte[] target, int offset, int length) {
        StringReader.checkPart(offset, length, target.length);
        if (pos >= count) {
            return -1;
        }
        int read = Math.min(count - pos, length);
        if (read <= 0) {
            return 0;
        }
        System.arraycopy(buf, pos, target, offset, read);
        pos += read;
        return read;
    }

    @Override
    public long skip(long wanted) {
        long step = Math.min(count - pos, Math.max(wanted, 0));
        pos += (int) step;
        return step;
    }

    @Override
    public int available() {
        return count - pos;
    }

    @Override
    public boolean markSupported() {
        return true;
    }

    @Override
    public void mark(int limit) {
        mark = pos;
    }

    @Override
    public void reset() {
        pos = mark;
    }

    @Override
    public void close() throws IOException {
    }
}
