package java.util.function;

/** A long for a long. */
@FunctionalInterface
public interface LongUnaryOperator {
    long applyAsLong(long operand);

    default LongUnaryOperator compose(final LongUnaryOperator before) {
        if (before == null) {
            throw new NullPointerException();
        }
        return new LongUnaryOperator() {
            public long applyAsLong(long operand) {
                return LongUnaryOperator.this.applyAsLong(before.applyAsLong(operand));
            }
        };
    }

    default LongUnaryOperator andThen(final LongUnaryOperator after) {
        if (after == null) {
            throw new NullPointerException();
        }
        return new LongUnaryOperator() {
            public long applyAsLong(long operand) {
                return after.applyAsLong(LongUnaryOperator.this.applyAsLong(operand));
            }
        };
    }

    static LongUnaryOperator identity() {
        return new LongUnaryOperator() {
            public long applyAsLong(long operand) {
                return operand;
            }
        };
    }
}
