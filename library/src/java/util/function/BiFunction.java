package java.util.function;

/** A value for two values. */
@FunctionalInterface
public interface BiFunction<T, U, R> {
    R apply(T first, U second);

    default <V> BiFunction<T, U, V> andThen(final Function<? super R, ? extends V> after) {
        if (after == null) {
            throw new NullPointerException();
        }
        return new BiFunction<T, U, V>() {
            public V apply(T first, U second) {
                return after.apply(BiFunction.this.apply(first, second));
            }
        };
    }
}
