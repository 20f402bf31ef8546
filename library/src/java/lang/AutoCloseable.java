package java.lang;

/** As in the class library. */
public interface AutoCloseable {
    void close() throws Exception;
}
