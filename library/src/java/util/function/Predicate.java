package java.util.function;

/** A test of a value. */
@FunctionalInterface
public interface Predicate<T> {
    boolean test(T value);

    default Predicate<T> and(final Predicate<? super T> other) {
        if (other == null) {
            throw new NullPointerException();
        }
        return new Predicate<T>() {
            public boolean test(T value) {
                return Predicate.this.test(value) && other.test(value);
            }
        };
    }

    default Predicate<T> negate() {
        return new Predicate<T>() {
            public boolean test(T value) {
                return !Predicate.this.test(value);
            }
        };
    }

    default Predicate<T> or(final Predicate<? super T> other) {
        if (other == null) {
            throw new NullPointerException();
        }
        return new Predicate<T>() {
            public boolean test(T value) {
                return Predicate.this.test(value) || other.test(value);
            }
        };
    }

    static <T> Predicate<T> isEqual(final Object target) {
        return new Predicate<T>() {
            public boolean test(T value) {
                return target == null ? value == null : target.equals(value);
            }
        };
    }

    @SuppressWarnings("unchecked")
    static <T> Predicate<T> not(Predicate<? super T> target) {
        return (Predicate<T>) target.negate();
    }
}
