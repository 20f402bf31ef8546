package java.io;

/** As in the class library. */
public interface Flushable {
    void flush() throws IOException;
}
