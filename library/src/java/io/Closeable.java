package java.io;

/** As in the class library. */
public interface Closeable extends AutoCloseable {
    void close() throws IOException;
}
