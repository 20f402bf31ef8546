package java.util;

import java.util.function.Consumer;
import java.util.function.Predicate;

/** A queue that hands out its least element. Its heap is that of the Java machine, since the order of an iteration shows it. */
public class PriorityQueue<E> extends AbstractQueue<E> implements java.io.Serializable {
    private Object[] heap = new Object[16];
    private int size;
    private final Comparator<? super E> comparator;
    private int modCount;

    public PriorityQueue() {
        comparator = null;
    }

    public PriorityQueue(int initialCapacity) {
        this(initialCapacity, null);
    }

    public PriorityQueue(Comparator<? super E> comparator) {
        this.comparator = comparator;
    }

    public PriorityQueue(int initialCapacity, Comparator<? super E> comparator) {
        if (initialCapacity < 1) {
            throw new IllegalArgumentException();
        }
        this.comparator = comparator;
    }

    @SuppressWarnings("unchecked")
    public PriorityQueue(Collection<? extends E> c) {
        if (c instanceof SortedSet) {
            comparator = (Comparator<? super E>) ((SortedSet<? extends E>) c).comparator();
            take(c.toArray());
        } else if (c instanceof PriorityQueue) {
            comparator = (Comparator<? super E>) ((PriorityQueue<? extends E>) c).comparator();
            take(c.toArray());
        } else {
            comparator = null;
            take(c.toArray());
            heapify();
        }
    }

    @SuppressWarnings("unchecked")
    public PriorityQueue(PriorityQueue<? extends E> c) {
        comparator = (Comparator<? super E>) c.comparator();
        take(c.toArray());
    }

    @SuppressWarnings("unchecked")
    public PriorityQueue(SortedSet<? extends E> c) {
        comparator = (Comparator<? super E>) c.comparator();
        take(c.toArray());
    }

    private void take(Object[] elements) {
        if (elements.length == 1 || comparator != null) {
            for (int i = 0; i < elements.length; i++) {
                if (elements[i] == null) {
                    throw new NullPointerException();
                }
            }
        }
        heap = new Object[ArrayList.room(16, elements.length)];
        size = elements.length;
        System.arraycopy(elements, 0, heap, 0, size);
    }

    @SuppressWarnings("unchecked")
    private Comparator<Object> order() {
        return comparator == null ? Comparators.NATURAL : (Comparator<Object>) comparator;
    }

    private void heapify() {
        Comparator<Object> order = order();
        for (int i = (size >>> 1) - 1; i >= 0; i--) {
            sink(i, heap[i], size, order);
        }
    }

    /** Puts an element at a place or above it. */
    private void rise(int place, Object element) {
        Comparator<Object> order = order();
        int at = place;
        if (comparator == null) {
            Comparable<?> comparable = (Comparable<?>) element;
        }
        while (at > 0) {
            int parent = at - 1 >>> 1;
            if (order.compare(element, heap[parent]) >= 0) {
                break;
            }
            heap[at] = heap[parent];
            at = parent;
        }
        heap[at] = element;
    }

    /** Puts an element at a place or below it, in a heap of so many. */
    private void sink(int place, Object element, int count, Comparator<Object> order) {
        int at = place;
        int half = count >>> 1;
        while (at < half) {
            int child = 2 * at + 1;
            Object least = heap[child];
            if (child + 1 < count && order.compare(least, heap[child + 1]) > 0) {
                child++;
                least = heap[child];
            }
            if (order.compare(element, least) <= 0) {
                break;
            }
            heap[at] = least;
            at = child;
        }
        heap[at] = element;
    }

    public boolean add(E e) {
        return offer(e);
    }

    public boolean offer(E e) {
        if (e == null) {
            throw new NullPointerException();
        }
        modCount++;
        if (size == heap.length) {
            Object[] more = new Object[ArrayList.room(heap.length, size + 1)];
            System.arraycopy(heap, 0, more, 0, size);
            heap = more;
        }
        rise(size, e);
        size++;
        return true;
    }

    @SuppressWarnings("unchecked")
    public E peek() {
        return size == 0 ? null : (E) heap[0];
    }

    private int indexOf(Object o) {
        if (o != null) {
            for (int i = 0; i < size; i++) {
                if (o.equals(heap[i])) {
                    return i;
                }
            }
        }
        return -1;
    }

    public boolean remove(Object o) {
        int at = indexOf(o);
        if (at < 0) {
            return false;
        }
        removeAt(at);
        return true;
    }

    private void removeSame(Object o) {
        for (int i = 0; i < size; i++) {
            if (o == heap[i]) {
                removeAt(i);
                return;
            }
        }
    }

    public boolean contains(Object o) {
        return indexOf(o) >= 0;
    }

    public Object[] toArray() {
        Object[] all = new Object[size];
        System.arraycopy(heap, 0, all, 0, size);
        return all;
    }

    public <T> T[] toArray(T[] a) {
        T[] result = ArrayKinds.withRoom(a, size);
        System.arraycopy(heap, 0, result, 0, size);
        if (result.length > size) {
            result[size] = null;
        }
        return result;
    }

    public Iterator<E> iterator() {
        return new Walk<E>(this);
    }

    public int size() {
        return size;
    }

    public void clear() {
        modCount++;
        size = 0;
    }

    @SuppressWarnings("unchecked")
    public E poll() {
        if (size == 0) {
            return null;
        }
        modCount++;
        E least = (E) heap[0];
        size--;
        if (size > 0) {
            sink(0, heap[size], size, order());
        }
        return least;
    }

    /** Removes the element at a place. Gives the element that came to a place before it, if one did. */
    private Object removeAt(int at) {
        modCount++;
        size--;
        if (size == at) {
            return null;
        }
        Object moved = heap[size];
        sink(at, moved, size, order());
        if (heap[at] == moved) {
            rise(at, moved);
            if (heap[at] != moved) {
                return moved;
            }
        }
        return null;
    }

    public Comparator<? super E> comparator() {
        return comparator;
    }

    @SuppressWarnings("unchecked")
    public boolean removeIf(Predicate<? super E> filter) {
        if (filter == null) {
            throw new NullPointerException();
        }
        modCount++;
        int expected = modCount;
        int count = size;
        boolean[] dead = new boolean[ArrayList.room(16, count)];
        boolean any = false;
        for (int i = 0; i < count; i++) {
            if (filter.test((E) heap[i])) {
                dead[i] = true;
                any = true;
            }
        }
        if (modCount != expected) {
            throw new ConcurrentModificationException();
        }
        if (any) {
            int write = 0;
            for (int i = 0; i < count; i++) {
                if (!dead[i]) {
                    heap[write++] = heap[i];
                }
            }
            size = write;
            heapify();
        }
        return any;
    }

    public boolean removeAll(final Collection<?> c) {
        if (c == null) {
            throw new NullPointerException();
        }
        return removeIf(new Predicate<E>() {
            public boolean test(E element) {
                return c.contains(element);
            }
        });
    }

    public boolean retainAll(final Collection<?> c) {
        if (c == null) {
            throw new NullPointerException();
        }
        return removeIf(new Predicate<E>() {
            public boolean test(E element) {
                return !c.contains(element);
            }
        });
    }

    private static native void changedByForEach();

    @SuppressWarnings("unchecked")
    public void forEach(Consumer<? super E> action) {
        if (action == null) {
            throw new NullPointerException();
        }
        int expected = modCount;
        int count = size;
        for (int i = 0; i < count; i++) {
            action.accept((E) heap[i]);
            if (modCount != expected) {
                changedByForEach();
            }
        }
    }

    private static final class Walk<E> implements Iterator<E> {
        private final PriorityQueue<E> queue;
        private int cursor;
        private int last = -1;
        /** Elements that a removal moved to where the iterator had been already. */
        private ArrayDeque<E> moved;
        private E lastMoved;
        private int expected;

        Walk(PriorityQueue<E> queue) {
            this.queue = queue;
            expected = queue.modCount;
        }

        public boolean hasNext() {
            return cursor < queue.size || moved != null && !moved.isEmpty();
        }

        @SuppressWarnings("unchecked")
        public E next() {
            if (queue.modCount != expected) {
                throw new ConcurrentModificationException();
            }
            if (cursor < queue.size) {
                last = cursor;
                cursor++;
                return (E) queue.heap[last];
            }
            if (moved != null) {
                last = -1;
                lastMoved = moved.poll();
                if (lastMoved != null) {
                    return lastMoved;
                }
            }
            throw new NoSuchElementException();
        }

        @SuppressWarnings("unchecked")
        public void remove() {
            if (queue.modCount != expected) {
                throw new ConcurrentModificationException();
            }
            if (last >= 0) {
                Object before = queue.removeAt(last);
                last = -1;
                if (before == null) {
                    cursor--;
                } else {
                    if (moved == null) {
                        moved = new ArrayDeque<E>();
                    }
                    moved.add((E) before);
                }
            } else if (lastMoved != null) {
                queue.removeSame(lastMoved);
                lastMoved = null;
            } else {
                throw new IllegalStateException();
            }
            expected = queue.modCount;
        }
    }
}
