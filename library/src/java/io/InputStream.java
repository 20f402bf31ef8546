package java.io;

/** As in the class library. */
public abstract class InputStream implements Closeable {
    public abstract int read() throws IOException;

    public int read(byte[] target) throws IOException {
        return read(target, 0, target.length);
    }

    public int read(byte[] target, int offset, int length) throws IOException {
        StringReader.checkPart(offset, length, target.length);
        if (length == 0) {
            return 0;
        }
        int octet = read();
        if (octet == -1) {
            return -1;
        }
        target[offset] = (byte) octet;
        int read = 1;
        try {
            while (read < length) {
                octet = read();
                if (octet == -1) {
                    break;
                }
                target[offset + read] = (byte) octet;
                read++;
            }
        } catch (IOException e) {
            return read;
        }
        return read;
    }

    public byte[] readAllBytes() throws IOException {
        ByteArrayOutputStream all = new ByteArrayOutputStream();
        byte[] part = new byte[8192];
        int read = 0;
        while (read >= 0) {
            int count = 0;
            read = read(part, 0, 8192);
            while (read > 0) {
                count += read;
                read = read(part, count, 8192 - count);
            }
            all.write(part, 0, count);
        }
        return all.toByteArray();
    }

    public long skip(long count) throws IOException {
        if (count <= 0) {
            return 0;
        }
        byte[] skipped = new byte[(int) Math.min(2048, count)];
        long left = count;
        while (left > 0) {
            int read = read(skipped, 0, (int) Math.min(skipped.length, left));
            if (read < 0) {
                break;
            }
            left -= read;
        }
        return count - left;
    }

    public int available() throws IOException {
        return 0;
    }

    public void close() throws IOException {
    }

    public void mark(int limit) {
    }

    public void reset() throws IOException {
        throw new IOException("mark/reset not supported");
    }

    public boolean markSupported() {
        return false;
    }
}
