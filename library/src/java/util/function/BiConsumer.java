package java.util.function;

/** Takes two values. */
@FunctionalInterface
public interface BiConsumer<T, U> {
    void accept(T first, U second);

    default BiConsumer<T, U> andThen(final BiConsumer<? super T, ? super U> after) {
        if (after == null) {
            throw new NullPointerException();
        }
        return new BiConsumer<T, U>() {
            public void accept(T first, U second) {
                BiConsumer.this.accept(first, second);
                after.accept(first, second);
            }
        };
    }
}
