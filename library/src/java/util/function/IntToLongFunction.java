package java.util.function;

/** A long for an int. */
@FunctionalInterface
public interface IntToLongFunction {
    long applyAsLong(int value);
}
