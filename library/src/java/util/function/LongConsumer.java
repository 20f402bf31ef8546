package java.util.function;

/** Takes a long. */
@FunctionalInterface
public interface LongConsumer {
    void accept(long value);

    default LongConsumer andThen(final LongConsumer after) {
        if (after == null) {
            throw new NullPointerException();
        }
        return new LongConsumer() {
            public void accept(long value) {
                LongConsumer.this.accept(value);
                after.accept(value);
            }
        };
    }
}
