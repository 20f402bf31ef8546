package java.util;

/** The iterator of the first releases of Java. */
public interface Enumeration<E> {
    boolean hasMoreElements();

    E nextElement();
}
