package java.io;

import varexj.lang.Utf8;

/** As in the class library; texts are of UTF-8. */
public class ByteArrayOutputStream extends OutputStream {
    protected byte[] buf;
    protected int count;

    public ByteArrayOutputStream() {
        this(32);
    }

    public ByteArrayOutputStream(int size) {
        if (size < 0) {
            throw new IllegalArgumentException("Negative initial size: " + size);
        }
        buf = new byte[size];
    }

    private void ensureRoom(int wanted) {
        if (wanted > buf.length) {
            byte[] more = new byte[Math.max(wanted, 2 * buf.length)];
            System.arraycopy(buf, 0, more, 0, count);
            buf = more;
        }
    }

    @Override
    public void write(int octet) {
        ensureRoom(count + 1);
        buf[count] = (byte) octet;
        count++;
    }

    @Override
    public void write(byte[] bytes, int offset, int length) {
        StringReader.checkPart(offset, length, bytes.length);
        ensureRoom(count + length);
        System.arraycopy(bytes, offset, buf, count, length);
        count += length;
    }

    public void writeBytes(byte[] bytes) {
        write(bytes, 0, bytes.length);
    }

    public void writeTo(OutputStream out) throws IOException {
        out.write(buf, 0, count);
    }

    public void reset() {
        count = 0;
    }

    public byte[] toByteArray() {
        byte[] bytes = new byte[count];
        System.arraycopy(buf, 0, bytes, 0, count);
        return bytes;
    }

    public int size() {
        return count;
    }

    @Override
    public String toString() {
        return Utf8.text(buf, 0, count);
    }

    @Override
    public void close() throws IOException {
    }
}
