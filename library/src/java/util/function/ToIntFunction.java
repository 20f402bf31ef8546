package java.util.function;

/** An int for a value. */
@FunctionalInterface
public interface ToIntFunction<T> {
    int applyAsInt(T value);
}
