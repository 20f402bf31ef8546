package java.util.function;

/** A long for a value. */
@FunctionalInterface
public interface ToLongFunction<T> {
    long applyAsLong(T value);
}
