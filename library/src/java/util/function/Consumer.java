package java.util.function;

/** Takes a value. */
@FunctionalInterface
public interface Consumer<T> {
    void accept(T value);

    default Consumer<T> andThen(final Consumer<? super T> after) {
        if (after == null) {
            throw new NullPointerException();
        }
        return new Consumer<T>() {
            public void accept(T value) {
                Consumer.this.accept(value);
                after.accept(value);
            }
        };
    }
}
