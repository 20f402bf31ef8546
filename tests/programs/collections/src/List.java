import java.util.Iterator;
import java.util.NoSuchElementException;

/** A list that is linked forwards, or a growing array: an option decides. */
abstract class List<T extends Comparable<T>> implements Iterable<T> {
    abstract void add(T value);

    abstract int size();

    static <T extends Comparable<T>> List<T> make() {
        if (Main.LINKED) {
            return new Linked<T>();
        }
        return new Growing<T>();
    }

    T largest() {
        T best = null;
        for (T value : this) {
            if (best == null || value.compareTo(best) > 0) {
                best = value;
            }
        }
        if (best == null) {
            throw new NoSuchElementException("empty");
        }
        return best;
    }

    List<T> sorted() {
        List<T> result = make();
        boolean[] taken = new boolean[size()];
        for (int round = 0; round < taken.length; round++) {
            T least = null;
            int at = 0;
            int place = -1;
            for (T value : this) {
                if (!taken[at] && (least == null || value.compareTo(least) < 0)) {
                    least = value;
                    place = at;
                }
                at++;
            }
            taken[place] = true;
            result.add(least);
        }
        return result;
    }

    static final class Linked<T extends Comparable<T>> extends List<T> {
        private static final class Cell<T> {
            final T value;
            Cell<T> next;

            Cell(T value) {
                this.value = value;
            }
        }

        private Cell<T> first;
        private Cell<T> last;
        private int size;

        void add(T value) {
            Cell<T> cell = new Cell<T>(value);
            if (first == null) {
                first = cell;
            } else {
                last.next = cell;
            }
            last = cell;
            size++;
        }

        int size() {
            return size;
        }

        public Iterator<T> iterator() {
            return new Iterator<T>() {
                private Cell<T> at = first;

                public boolean hasNext() {
                    return at != null;
                }

                public T next() {
                    T value = at.value;
                    at = at.next;
                    return value;
                }

                public void remove() {
                    throw new UnsupportedOperationException();
                }
            };
        }
    }

    static final class Growing<T extends Comparable<T>> extends List<T> {
        private Object[] values = new Object[1];
        private int size;

        void add(T value) {
            if (size == values.length) {
                Object[] more = new Object[2 * size];
                System.arraycopy(values, 0, more, 0, size);
                values = more;
            }
            values[size++] = value;
        }

        int size() {
            return size;
        }

        public Iterator<T> iterator() {
            return new Iterator<T>() {
                private int at;

                public boolean hasNext() {
                    return at < size;
                }

                @SuppressWarnings("unchecked")
                public T next() {
                    return (T) values[at++];
                }

                public void remove() {
                    throw new UnsupportedOperationException();
                }
            };
        }
    }
}
