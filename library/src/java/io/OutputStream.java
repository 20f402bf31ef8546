package java.io;

/** As in the class library. A PrintStream is none here: it is the machine's. */
public abstract class OutputStream implements Closeable, Flushable {
    public abstract void write(int octet) throws IOException;

    public void write(byte[] bytes) throws IOException {
        write(bytes, 0, bytes.length);
    }

    public void write(byte[] bytes, int offset, int length) throws IOException {
        StringReader.checkPart(offset, length, bytes.length);
        for (int at = 0; at < length; at++) {
            write(bytes[offset + at]);
        }
    }

    public void flush() throws IOException {
    }

    public void close() throws IOException {
    }
}
