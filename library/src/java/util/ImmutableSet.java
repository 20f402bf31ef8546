package java.util;

import java.util.function.Predicate;
import varexj.lang.ObjectMembers;

/**
 * What {@code Set.of} gives: a set without nulls that refuses each change. A Java machine chooses the order of more than one element anew in each run,
 * so asking for it ends the run.
 */
final class ImmutableSet<E> extends AbstractSet<E> implements java.io.Serializable {
    private final Object[] items;
    private final int[] hashes;

    private ImmutableSet(Object[] items) {
        this.items = items;
        hashes = new int[items.length];
    }

    /** A set of these, whose array it keeps. */
    static <E> Set<E> of(Object[] items) {
        ImmutableSet<E> set = new ImmutableSet<E>(items);
        for (int i = 0; i < items.length; i++) {
            if (items[i] == null) {
                throw new NullPointerException();
            }
            int hash = ObjectMembers.hashCode(items[i]);
            set.hashes[i] = hash;
            if (set.find(hash, items[i], i)) {
                throw new IllegalArgumentException("duplicate element: " + items[i]);
            }
        }
        return set;
    }

    private boolean find(int hash, Object o, int count) {
        for (int i = 0; i < count; i++) {
            if (hashes[i] == hash && o.equals(items[i])) {
                return true;
            }
        }
        return false;
    }

    /** The elements of a collection, for who doesn't show in which order they come. */
    static <E> Iterator<E> anyOrder(Collection<E> c) {
        return c instanceof ImmutableSet ? new Walk<E>(((ImmutableSet<E>) c).items) : c.iterator();
    }

    private static native void order();

    private static UnsupportedOperationException refused() {
        return new UnsupportedOperationException();
    }

    public int size() {
        return items.length;
    }

    public boolean contains(Object o) {
        if (o == null) {
            throw new NullPointerException();
        }
        return items.length > 0 && find(ObjectMembers.hashCode(o), o, items.length);
    }

    public Iterator<E> iterator() {
        if (items.length > 1) {
            order();
        }
        return new Walk<E>(items);
    }

    public int hashCode() {
        int sum = 0;
        for (int i = 0; i < hashes.length; i++) {
            sum += hashes[i];
        }
        return sum;
    }

    public boolean add(E e) {
        throw refused();
    }

    public boolean remove(Object o) {
        throw refused();
    }

    public boolean addAll(Collection<? extends E> c) {
        throw refused();
    }

    public boolean removeAll(Collection<?> c) {
        throw refused();
    }

    public boolean retainAll(Collection<?> c) {
        throw refused();
    }

    public boolean removeIf(Predicate<? super E> filter) {
        throw refused();
    }

    public void clear() {
        throw refused();
    }

    private static final class Walk<E> implements Iterator<E> {
        private final Object[] items;
        private int cursor;

        Walk(Object[] items) {
            this.items = items;
        }

        public boolean hasNext() {
            return cursor < items.length;
        }

        @SuppressWarnings("unchecked")
        public E next() {
            if (cursor >= items.length) {
                throw new NoSuchElementException();
            }
            E element = (E) items[cursor];
            cursor++;
            return element;
        }

        public void remove() {
            throw refused();
        }
    }
}
