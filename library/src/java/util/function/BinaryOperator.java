package java.util.function;

/** A value for two values of the same type. */
@FunctionalInterface
public interface BinaryOperator<T> extends BiFunction<T, T, T> {
    static <T> BinaryOperator<T> minBy(final java.util.Comparator<? super T> order) {
        if (order == null) {
            throw new NullPointerException();
        }
        return new BinaryOperator<T>() {
            public T apply(T left, T right) {
                return order.compare(left, right) <= 0 ? left : right;
            }
        };
    }

    static <T> BinaryOperator<T> maxBy(final java.util.Comparator<? super T> order) {
        if (order == null) {
            throw new NullPointerException();
        }
        return new BinaryOperator<T>() {
            public T apply(T left, T right) {
                return order.compare(left, right) >= 0 ? left : right;
            }
        };
    }
}
