package java.io;

/** As in the class library, but for buffers of units. */
public abstract class Reader implements Closeable {
    protected Object lock;

    protected Reader() {
        lock = this;
    }

    protected Reader(Object lock) {
        if (lock == null) {
            throw new NullPointerException();
        }
        this.lock = lock;
    }

    public int read() throws IOException {
        char[] unit = new char[1];
        return read(unit, 0, 1) == -1 ? -1 : unit[0];
    }

    public int read(char[] target) throws IOException {
        return read(target, 0, target.length);
    }

    public abstract int read(char[] target, int offset, int length) throws IOException;

    public long skip(long count) throws IOException {
        if (count < 0) {
            throw new IllegalArgumentException("skip value is negative");
        }
        char[] skipped = new char[(int) Math.min(count, 8192)];
        long left = count;
        while (left > 0) {
            int read = read(skipped, 0, (int) Math.min(left, skipped.length));
            if (read == -1) {
                break;
            }
            left -= read;
        }
        return count - left;
    }

    public boolean ready() throws IOException {
        return false;
    }

    public boolean markSupported() {
        return false;
    }

    public void mark(int limit) throws IOException {
        throw new IOException("mark() not supported");
    }

    public void reset() throws IOException {
        throw new IOException("reset() not supported");
    }

    public abstract void close() throws IOException;

    public long transferTo(Writer out) throws IOException {
        if (out == null) {
            throw new NullPointerException();
        }
        long count = 0;
        char[] part = new char[8192];
        for (int read = read(part, 0, 8192); read >= 0; read = read(part, 0, 8192)) {
            out.write(part, 0, read);
            count += read;
        }
        return count;
    }
}
