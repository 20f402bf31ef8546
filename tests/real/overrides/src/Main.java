import java.io.StringWriter;
import java.util.Iterator;
import java.util.NoSuchElementException;
import java.util.function.Consumer;

/** Members that the core lacks and a class has itself; and `super` calls that lead to Object. */
public class Main {
    static boolean OWN;
    static boolean QUIET;

    static class Range implements Iterable<Integer> {
        final int to;

        Range(int to) {
            this.to = to;
        }

        @Override
        public Iterator<Integer> iterator() {
            return new Iterator<Integer>() {
                private int at;

                @Override
                public boolean hasNext() {
                    return at < to;
                }

                @Override
                public Integer next() {
                    if (at == to) {
                        throw new NoSuchElementException("end");
                    }
                    return at++;
                }
            };
        }
    }

    static class Kept implements Iterator<Integer> {
        @Override
        public boolean hasNext() {
            return true;
        }

        @Override
        public Integer next() {
            return 5;
        }

        @Override
        public void remove() {
            System.out.println("to be removed");
            Iterator.super.remove();
        }
    }

    static class Backwards extends Range {
        Backwards(int to) {
            super(to);
        }

        @Override
        public void forEach(Consumer<? super Integer> action) {
            for (int at = to - 1; at >= 0; at--) {
                action.accept(at);
            }
        }
    }

    static class Twice extends Range {
        Twice(int to) {
            super(to);
        }

        @Override
        public void forEach(Consumer<? super Integer> action) {
            super.forEach(action);
            super.forEach(action);
        }
    }

    interface Loud extends Iterable<Integer> {
        @Override
        default void forEach(Consumer<? super Integer> action) {
            System.out.println("loud");
            Iterable.super.forEach(action);
        }
    }

    static class LoudRange extends Range implements Loud {
        LoudRange(int to) {
            super(to);
        }
    }

    static class Text implements CharSequence {
        @Override
        public int length() {
            return 3;
        }

        @Override
        public char charAt(int index) {
            return (char) ('a' + index);
        }

        @Override
        public CharSequence subSequence(int start, int end) {
            return "part " + start + end;
        }

        @Override
        public String toString() {
            return "abc";
        }
    }

    static class Item {
        final int n;

        Item(int n) {
            this.n = n;
        }

        @Override
        public int hashCode() {
            return QUIET ? 16 : 255;
        }

        @Override
        public String toString() {
            String above = super.toString();
            return above.substring(above.indexOf('@'));
        }

        int above() {
            return super.hashCode();
        }

        @Override
        public boolean equals(Object o) {
            return super.equals(o) || o instanceof Item && ((Item) o).n == n;
        }
    }

    static class Failure extends RuntimeException {
        Failure(String text) {
            super(text, null, false, true);
        }

        @Override
        public Throwable fillInStackTrace() {
            return this;
        }

        @Override
        public String getMessage() {
            return "own " + super.getMessage();
        }
    }

    static void each(Iterable<Integer> all) {
        StringBuilder text = new StringBuilder();
        all.forEach(n -> text.append(n).append(' '));
        System.out.println(text);
    }

    public static void main(String[] args) {
        each(OWN ? new Backwards(4) : new Range(3));
        each(new Twice(2));
        each(new LoudRange(2));
        Iterable<Integer> lambda = () -> new Range(2).iterator();
        each(lambda);
        CharSequence text = OWN ? new Text() : "xyz";
        System.out.println(text.subSequence(1, 2) + " " + text + " " + new StringBuilder("s").append(text, 0, 2).append(text));
        System.out.println(new StringWriter().append(text, 1, 2).append('.').append(text, 0, 1));
        Item item = new Item(4);
        System.out.println(item + " " + (item.above() == item.above()) + item.equals(new Item(4)) + item.hashCode());
        Iterator<Integer> walk = new Range(2).iterator();
        walk.next();
        try {
            walk.remove();
        } catch (UnsupportedOperationException e) {
            System.out.println(e.getMessage());
        }
        try {
            new Kept().remove();
        } catch (UnsupportedOperationException e) {
            System.out.println(e.getMessage() + " it");
        }
        walk.forEachRemaining(n -> System.out.println("left " + n));
        try {
            throw new Failure("x");
        } catch (Failure e) {
            System.out.println(e);
        }
        Object one = new Object() { };
        System.out.println(one.hashCode() == one.hashCode() && one.equals(one) && one.toString().equals(one.toString()));
        if (QUIET) {
            throw new Failure("end");
        }
    }
}
