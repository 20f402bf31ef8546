package java.util.function;

/** An int for an int. */
@FunctionalInterface
public interface IntUnaryOperator {
    int applyAsInt(int operand);

    default IntUnaryOperator compose(final IntUnaryOperator before) {
        if (before == null) {
            throw new NullPointerException();
        }
        return new IntUnaryOperator() {
            public int applyAsInt(int operand) {
                return IntUnaryOperator.this.applyAsInt(before.applyAsInt(operand));
            }
        };
    }

    default IntUnaryOperator andThen(final IntUnaryOperator after) {
        if (after == null) {
            throw new NullPointerException();
        }
        return new IntUnaryOperator() {
            public int applyAsInt(int operand) {
                return after.applyAsInt(IntUnaryOperator.this.applyAsInt(operand));
            }
        };
    }

    static IntUnaryOperator identity() {
        return new IntUnaryOperator() {
            public int applyAsInt(int operand) {
                return operand;
            }
        };
    }
}
