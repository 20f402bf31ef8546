package java.util.function;

/** A test of a long. */
@FunctionalInterface
public interface LongPredicate {
    boolean test(long value);

    default LongPredicate and(final LongPredicate other) {
        if (other == null) {
            throw new NullPointerException();
        }
        return new LongPredicate() {
            public boolean test(long value) {
                return LongPredicate.this.test(value) && other.test(value);
            }
        };
    }

    default LongPredicate negate() {
        return new LongPredicate() {
            public boolean test(long value) {
                return !LongPredicate.this.test(value);
            }
        };
    }

    default LongPredicate or(final LongPredicate other) {
        if (other == null) {
            throw new NullPointerException();
        }
        return new LongPredicate() {
            public boolean test(long value) {
                return LongPredicate.this.test(value) || other.test(value);
            }
        };
    }
}
