package java.util.function;

/** A value for a value of the same type. */
@FunctionalInterface
public interface UnaryOperator<T> extends Function<T, T> {
    static <T> UnaryOperator<T> identity() {
        return new UnaryOperator<T>() {
            public T apply(T value) {
                return value;
            }
        };
    }
}
