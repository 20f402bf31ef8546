package java.util.function;

/** A value for a long. */
@FunctionalInterface
public interface LongFunction<R> {
    R apply(long value);
}
