package java.util.function;

/** Takes an int. */
@FunctionalInterface
public interface IntConsumer {
    void accept(int value);

    default IntConsumer andThen(final IntConsumer after) {
        if (after == null) {
            throw new NullPointerException();
        }
        return new IntConsumer() {
            public void accept(int value) {
                IntConsumer.this.accept(value);
                after.accept(value);
            }
        };
    }
}
