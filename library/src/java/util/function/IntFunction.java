package java.util.function;

/** A value for an int. */
@FunctionalInterface
public interface IntFunction<R> {
    R apply(int value);
}
