package java.util;

import java.util.function.Consumer;
import java.util.function.Predicate;

/**
 * A queue with two ends, in a ring of an array, without nulls. What an iterator sees of a deque that is changed beside it depends on the Java machine's
 * array, so there the run ends.
 */
public class ArrayDeque<E> extends AbstractCollection<E> implements Deque<E>, Cloneable, java.io.Serializable {
    private final Ring ring = new Ring();
    private int changes;

    public ArrayDeque() {
    }

    public ArrayDeque(int numElements) {
    }

    public ArrayDeque(Collection<? extends E> c) {
        addAll(c);
    }

    private static native void changedWhileIterating();

    private void wantElement() {
        if (ring.size == 0) {
            throw new NoSuchElementException();
        }
    }

    @SuppressWarnings("unchecked")
    private E at(int index) {
        return (E) ring.get(index);
    }

    @SuppressWarnings("unchecked")
    private E removeAt(int index) {
        changes++;
        return (E) ring.remove(index);
    }

    public void addFirst(E e) {
        if (e == null) {
            throw new NullPointerException();
        }
        changes++;
        ring.addFirst(e);
    }

    public void addLast(E e) {
        if (e == null) {
            throw new NullPointerException();
        }
        changes++;
        ring.addLast(e);
    }

    public boolean addAll(Collection<? extends E> c) {
        int before = ring.size;
        Object[] others = c.toArray();
        for (int i = 0; i < others.length; i++) {
            if (others[i] == null) {
                throw new NullPointerException();
            }
            changes++;
            ring.addLast(others[i]);
        }
        return ring.size > before;
    }

    public boolean offerFirst(E e) {
        addFirst(e);
        return true;
    }

    public boolean offerLast(E e) {
        addLast(e);
        return true;
    }

    public E removeFirst() {
        wantElement();
        return removeAt(0);
    }

    public E removeLast() {
        wantElement();
        return removeAt(ring.size - 1);
    }

    public E pollFirst() {
        return ring.size == 0 ? null : removeAt(0);
    }

    public E pollLast() {
        return ring.size == 0 ? null : removeAt(ring.size - 1);
    }

    public E getFirst() {
        wantElement();
        return at(0);
    }

    public E getLast() {
        wantElement();
        return at(ring.size - 1);
    }

    public E peekFirst() {
        return ring.size == 0 ? null : at(0);
    }

    public E peekLast() {
        return ring.size == 0 ? null : at(ring.size - 1);
    }

    public boolean removeFirstOccurrence(Object o) {
        int at = o == null ? -1 : ring.indexOf(o);
        if (at < 0) {
            return false;
        }
        removeAt(at);
        return true;
    }

    public boolean removeLastOccurrence(Object o) {
        int at = o == null ? -1 : ring.lastIndexOf(o);
        if (at < 0) {
            return false;
        }
        removeAt(at);
        return true;
    }

    public boolean add(E e) {
        addLast(e);
        return true;
    }

    public boolean offer(E e) {
        addLast(e);
        return true;
    }

    public E remove() {
        return removeFirst();
    }

    public E poll() {
        return pollFirst();
    }

    public E element() {
        return getFirst();
    }

    public E peek() {
        return peekFirst();
    }

    public void push(E e) {
        addFirst(e);
    }

    public E pop() {
        return removeFirst();
    }

    public int size() {
        return ring.size;
    }

    public boolean isEmpty() {
        return ring.size == 0;
    }

    public Iterator<E> iterator() {
        return new Walk<E>(this, false);
    }

    public Iterator<E> descendingIterator() {
        return new Walk<E>(this, true);
    }

    public void forEach(Consumer<? super E> action) {
        if (action == null) {
            throw new NullPointerException();
        }
        int expected = changes;
        int count = ring.size;
        for (int i = 0; i < count; i++) {
            action.accept(at(i));
            steady(expected);
        }
    }

    private void steady(int expected) {
        if (changes != expected) {
            changedWhileIterating();
        }
    }

    public boolean removeIf(Predicate<? super E> filter) {
        if (filter == null) {
            throw new NullPointerException();
        }
        int expected = changes;
        int count = ring.size;
        boolean[] kept = new boolean[ArrayList.room(16, count)];
        boolean any = false;
        for (int i = 0; i < count; i++) {
            kept[i] = !filter.test(at(i));
            if (!kept[i]) {
                any = true;
            }
            steady(expected);
        }
        if (any) {
            changes++;
            ring.keep(kept);
        }
        return any;
    }

    public boolean removeAll(final Collection<?> c) {
        if (c == null) {
            throw new NullPointerException();
        }
        return removeIf(new Predicate<E>() {
            public boolean test(E element) {
                return c.contains(element);
            }
        });
    }

    public boolean retainAll(final Collection<?> c) {
        if (c == null) {
            throw new NullPointerException();
        }
        return removeIf(new Predicate<E>() {
            public boolean test(E element) {
                return !c.contains(element);
            }
        });
    }

    public boolean contains(Object o) {
        return o != null && ring.indexOf(o) >= 0;
    }

    public boolean remove(Object o) {
        return removeFirstOccurrence(o);
    }

    public void clear() {
        changes++;
        ring.clear();
    }

    public Object[] toArray() {
        return ring.toArray();
    }

    public <T> T[] toArray(T[] a) {
        return ring.toArray(a);
    }

    /** A deque of its own with the same elements; of this class, also where the deque is of a class below. */
    public ArrayDeque<E> clone() {
        return new ArrayDeque<E>(this);
    }

    private static final class Walk<E> implements Iterator<E> {
        private final ArrayDeque<E> deque;
        private final boolean down;
        private int cursor;
        private int left;
        private int last = -1;
        private int expected;

        Walk(ArrayDeque<E> deque, boolean down) {
            this.deque = deque;
            this.down = down;
            left = deque.ring.size;
            cursor = down ? left - 1 : 0;
            expected = deque.changes;
        }

        public boolean hasNext() {
            return left > 0;
        }

        public E next() {
            if (left <= 0) {
                throw new NoSuchElementException();
            }
            deque.steady(expected);
            last = cursor;
            cursor = down ? last - 1 : last + 1;
            left--;
            return deque.at(last);
        }

        public void remove() {
            if (last < 0) {
                throw new IllegalStateException();
            }
            deque.steady(expected);
            deque.removeAt(last);
            if (!down) {
                cursor--;
            }
            last = -1;
            expected = deque.changes;
        }
    }
}
