package java.util;

import java.util.function.Predicate;
import java.util.function.UnaryOperator;

/** What {@code List.of} gives: a list without nulls that refuses each change. */
final class ImmutableList<E> extends AbstractList<E> implements RandomAccess, java.io.Serializable {
    private final Object[] items;
    /** Whether the Java machine finds a wrong place by its array: so it is but for one or two elements, and for parts. */
    private final boolean inArray;

    private ImmutableList(Object[] items, boolean inArray) {
        this.items = items;
        this.inArray = inArray;
    }

    /** A list of these, whose array it keeps. */
    static <E> List<E> of(Object[] items) {
        for (int i = 0; i < items.length; i++) {
            if (items[i] == null) {
                throw new NullPointerException();
            }
        }
        return new ImmutableList<E>(items, items.length == 0 || items.length > 2);
    }

    private static UnsupportedOperationException refused() {
        return new UnsupportedOperationException();
    }

    public int size() {
        return items.length;
    }

    @SuppressWarnings("unchecked")
    public E get(int index) {
        if (index < 0 || index >= items.length) {
            if (inArray) {
                throw new ArrayIndexOutOfBoundsException("Index " + index + " out of bounds for length " + items.length);
            }
            throw new IndexOutOfBoundsException(outside(index, items.length));
        }
        return (E) items[index];
    }

    public boolean contains(Object o) {
        return indexOf(o) >= 0;
    }

    public int indexOf(Object o) {
        if (o == null) {
            throw new NullPointerException();
        }
        for (int i = 0; i < items.length; i++) {
            if (o.equals(items[i])) {
                return i;
            }
        }
        return -1;
    }

    public int lastIndexOf(Object o) {
        if (o == null) {
            throw new NullPointerException();
        }
        for (int i = items.length - 1; i >= 0; i--) {
            if (o.equals(items[i])) {
                return i;
            }
        }
        return -1;
    }

    public Object[] toArray() {
        Object[] result = new Object[items.length];
        System.arraycopy(items, 0, result, 0, items.length);
        return result;
    }

    public <T> T[] toArray(T[] a) {
        T[] result = ArrayKinds.withRoom(a, items.length);
        System.arraycopy(items, 0, result, 0, items.length);
        if (result.length > items.length) {
            result[items.length] = null;
        }
        return result;
    }

    public List<E> subList(int fromIndex, int toIndex) {
        checkRange(fromIndex, toIndex, items.length);
        Object[] part = new Object[toIndex - fromIndex];
        System.arraycopy(items, fromIndex, part, 0, part.length);
        return new ImmutableList<E>(part, false);
    }

    public boolean add(E e) {
        throw refused();
    }

    public boolean remove(Object o) {
        throw refused();
    }

    public boolean addAll(Collection<? extends E> c) {
        throw refused();
    }

    public boolean addAll(int index, Collection<? extends E> c) {
        throw refused();
    }

    public boolean removeAll(Collection<?> c) {
        throw refused();
    }

    public boolean retainAll(Collection<?> c) {
        throw refused();
    }

    public boolean removeIf(Predicate<? super E> filter) {
        throw refused();
    }

    public void replaceAll(UnaryOperator<E> operator) {
        throw refused();
    }

    public void sort(Comparator<? super E> c) {
        throw refused();
    }

    public void clear() {
        throw refused();
    }

    public Iterator<E> iterator() {
        return new Walk<E>(this, 0);
    }

    public ListIterator<E> listIterator(int index) {
        if (index < 0 || index > items.length) {
            throw new IndexOutOfBoundsException(outside(index, items.length));
        }
        return new Walk<E>(this, index);
    }

    private static final class Walk<E> implements ListIterator<E> {
        private final ImmutableList<E> list;
        private int cursor;

        Walk(ImmutableList<E> list, int cursor) {
            this.list = list;
            this.cursor = cursor;
        }

        public boolean hasNext() {
            return cursor != list.items.length;
        }

        @SuppressWarnings("unchecked")
        public E next() {
            if (cursor >= list.items.length) {
                throw new NoSuchElementException();
            }
            E element = (E) list.items[cursor];
            cursor++;
            return element;
        }

        public boolean hasPrevious() {
            return cursor != 0;
        }

        @SuppressWarnings("unchecked")
        public E previous() {
            if (cursor <= 0) {
                throw new NoSuchElementException();
            }
            cursor--;
            return (E) list.items[cursor];
        }

        public int nextIndex() {
            return cursor;
        }

        public int previousIndex() {
            return cursor - 1;
        }

        public void remove() {
            throw refused();
        }

        public void set(E e) {
            throw refused();
        }

        public void add(E e) {
            throw refused();
        }
    }
}
