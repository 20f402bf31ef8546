package java.util.function;

/** A test of an int. */
@FunctionalInterface
public interface IntPredicate {
    boolean test(int value);

    default IntPredicate and(final IntPredicate other) {
        if (other == null) {
            throw new NullPointerException();
        }
        return new IntPredicate() {
            public boolean test(int value) {
                return IntPredicate.this.test(value) && other.test(value);
            }
        };
    }

    default IntPredicate negate() {
        return new IntPredicate() {
            public boolean test(int value) {
                return !IntPredicate.this.test(value);
            }
        };
    }

    default IntPredicate or(final IntPredicate other) {
        if (other == null) {
            throw new NullPointerException();
        }
        return new IntPredicate() {
            public boolean test(int value) {
                return IntPredicate.this.test(value) || other.test(value);
            }
        };
    }
}
