package java.util.function;

/** An int for a long. */
@FunctionalInterface
public interface LongToIntFunction {
    int applyAsInt(long value);
}
