package java.util;

import java.util.function.Consumer;
import java.util.function.Function;
import java.util.function.Predicate;
import java.util.function.Supplier;
import varexj.lang.ObjectMembers;

/** A value that may be missing. Streams are left out. */
public final class Optional<T> {
    private static Optional<?> empty;

    private final T value;

    private Optional(T value) {
        this.value = value;
    }

    @SuppressWarnings("unchecked")
    public static <T> Optional<T> empty() {
        if (empty == null) {
            empty = new Optional<Object>(null);
        }
        return (Optional<T>) empty;
    }

    public static <T> Optional<T> of(T value) {
        if (value == null) {
            throw new NullPointerException();
        }
        return new Optional<T>(value);
    }

    public static <T> Optional<T> ofNullable(T value) {
        return value == null ? Optional.<T>empty() : new Optional<T>(value);
    }

    public T get() {
        return orElseThrow();
    }

    public boolean isPresent() {
        return value != null;
    }

    public boolean isEmpty() {
        return value == null;
    }

    public void ifPresent(Consumer<? super T> action) {
        if (value != null) {
            action.accept(value);
        }
    }

    public void ifPresentOrElse(Consumer<? super T> action, Runnable emptyAction) {
        if (value != null) {
            action.accept(value);
        } else {
            emptyAction.run();
        }
    }

    public T orElse(T other) {
        return value != null ? value : other;
    }

    public T orElseGet(Supplier<? extends T> supplier) {
        return value != null ? value : supplier.get();
    }

    public T orElseThrow() {
        if (value == null) {
            throw new NoSuchElementException("No value present");
        }
        return value;
    }

    public <X extends Throwable> T orElseThrow(Supplier<? extends X> exceptionSupplier) throws X {
        if (value == null) {
            throw exceptionSupplier.get();
        }
        return value;
    }

    private static void wanted(Object o) {
        if (o == null) {
            throw new NullPointerException();
        }
    }

    public Optional<T> filter(Predicate<? super T> predicate) {
        wanted(predicate);
        return value == null || predicate.test(value) ? this : Optional.<T>empty();
    }

    public <U> Optional<U> map(Function<? super T, ? extends U> mapper) {
        wanted(mapper);
        return value == null ? Optional.<U>empty() : Optional.<U>ofNullable(mapper.apply(value));
    }

    @SuppressWarnings("unchecked")
    public <U> Optional<U> flatMap(Function<? super T, ? extends Optional<? extends U>> mapper) {
        wanted(mapper);
        if (value == null) {
            return Optional.<U>empty();
        }
        Optional<U> result = (Optional<U>) mapper.apply(value);
        wanted(result);
        return result;
    }

    @SuppressWarnings("unchecked")
    public Optional<T> or(Supplier<? extends Optional<? extends T>> supplier) {
        wanted(supplier);
        if (value != null) {
            return this;
        }
        Optional<T> result = (Optional<T>) supplier.get();
        wanted(result);
        return result;
    }

    public boolean equals(Object o) {
        return o == this || o instanceof Optional && (value == null ? ((Optional<?>) o).value == null : value.equals(((Optional<?>) o).value));
    }

    public int hashCode() {
        return value == null ? 0 : ObjectMembers.hashCode(value);
    }

    public String toString() {
        return value == null ? "Optional.empty" : "Optional[" + value + "]";
    }
}
