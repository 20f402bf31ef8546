package java.util;

/** A list with two ends. It stands in a ring of an array: to insert or remove in the middle is one copy. */
public class LinkedList<E> extends AbstractSequentialList<E> implements List<E>, Deque<E>, Cloneable, java.io.Serializable {
    private final Ring ring = new Ring();

    public LinkedList() {
    }

    public LinkedList(Collection<? extends E> c) {
        addAll(c);
    }

    private void wantElement() {
        if (ring.size == 0) {
            throw new NoSuchElementException();
        }
    }

    @SuppressWarnings("unchecked")
    private E at(int index) {
        return (E) ring.get(index);
    }

    @SuppressWarnings("unchecked")
    private E removeAt(int index) {
        modCount++;
        return (E) ring.remove(index);
    }

    private void inside(int index) {
        if (index < 0 || index >= ring.size) {
            throw new IndexOutOfBoundsException(outside(index, ring.size));
        }
    }

    private void between(int index) {
        if (index < 0 || index > ring.size) {
            throw new IndexOutOfBoundsException(outside(index, ring.size));
        }
    }

    public E getFirst() {
        wantElement();
        return at(0);
    }

    public E getLast() {
        wantElement();
        return at(ring.size - 1);
    }

    public E removeFirst() {
        wantElement();
        return removeAt(0);
    }

    public E removeLast() {
        wantElement();
        return removeAt(ring.size - 1);
    }

    public void addFirst(E e) {
        modCount++;
        ring.addFirst(e);
    }

    public void addLast(E e) {
        modCount++;
        ring.addLast(e);
    }

    public boolean contains(Object o) {
        return ring.indexOf(o) >= 0;
    }

    public int size() {
        return ring.size;
    }

    public boolean add(E e) {
        modCount++;
        ring.addLast(e);
        return true;
    }

    public boolean remove(Object o) {
        int at = ring.indexOf(o);
        if (at < 0) {
            return false;
        }
        removeAt(at);
        return true;
    }

    public boolean addAll(Collection<? extends E> c) {
        return addAll(ring.size, c);
    }

    public boolean addAll(int index, Collection<? extends E> c) {
        between(index);
        Object[] others = c.toArray();
        if (others.length == 0) {
            return false;
        }
        modCount++;
        ring.insertAll(index, others);
        return true;
    }

    public void clear() {
        modCount++;
        ring.clear();
    }

    public E get(int index) {
        inside(index);
        return at(index);
    }

    @SuppressWarnings("unchecked")
    public E set(int index, E element) {
        inside(index);
        return (E) ring.set(index, element);
    }

    public void add(int index, E element) {
        between(index);
        modCount++;
        ring.insert(index, element);
    }

    public E remove(int index) {
        inside(index);
        return removeAt(index);
    }

    public int indexOf(Object o) {
        return ring.indexOf(o);
    }

    public int lastIndexOf(Object o) {
        return ring.lastIndexOf(o);
    }

    public E peek() {
        return ring.size == 0 ? null : at(0);
    }

    public E element() {
        return getFirst();
    }

    public E poll() {
        return ring.size == 0 ? null : removeAt(0);
    }

    public E remove() {
        return removeFirst();
    }

    public boolean offer(E e) {
        return add(e);
    }

    public boolean offerFirst(E e) {
        addFirst(e);
        return true;
    }

    public boolean offerLast(E e) {
        addLast(e);
        return true;
    }

    public E peekFirst() {
        return peek();
    }

    public E peekLast() {
        return ring.size == 0 ? null : at(ring.size - 1);
    }

    public E pollFirst() {
        return poll();
    }

    public E pollLast() {
        return ring.size == 0 ? null : removeAt(ring.size - 1);
    }

    public void push(E e) {
        addFirst(e);
    }

    public E pop() {
        return removeFirst();
    }

    public boolean removeFirstOccurrence(Object o) {
        return remove(o);
    }

    public boolean removeLastOccurrence(Object o) {
        int at = ring.lastIndexOf(o);
        if (at < 0) {
            return false;
        }
        removeAt(at);
        return true;
    }

    public ListIterator<E> listIterator(int index) {
        between(index);
        return new Walk<E>(this, index);
    }

    public Iterator<E> descendingIterator() {
        final Walk<E> walk = new Walk<E>(this, ring.size);
        return new Iterator<E>() {
            public boolean hasNext() {
                return walk.hasPrevious();
            }

            public E next() {
                return walk.previous();
            }

            public void remove() {
                walk.remove();
            }
        };
    }

    /** A list of its own with the same elements; of this class, also where the list is of a class below. */
    public Object clone() {
        return new LinkedList<E>(this);
    }

    public Object[] toArray() {
        return ring.toArray();
    }

    public <T> T[] toArray(T[] a) {
        return ring.toArray(a);
    }

    private static final class Walk<E> implements ListIterator<E> {
        private final LinkedList<E> list;
        private int cursor;
        private int last = -1;
        private int expected;

        Walk(LinkedList<E> list, int index) {
            this.list = list;
            cursor = index;
            expected = list.modCount;
        }

        private void check() {
            if (list.modCount != expected) {
                throw new ConcurrentModificationException();
            }
        }

        public boolean hasNext() {
            return cursor < list.ring.size;
        }

        public E next() {
            check();
            if (cursor >= list.ring.size) {
                throw new NoSuchElementException();
            }
            last = cursor;
            cursor++;
            return list.at(last);
        }

        public boolean hasPrevious() {
            return cursor > 0;
        }

        public E previous() {
            check();
            if (cursor <= 0) {
                throw new NoSuchElementException();
            }
            cursor--;
            last = cursor;
            return list.at(last);
        }

        public int nextIndex() {
            return cursor;
        }

        public int previousIndex() {
            return cursor - 1;
        }

        public void remove() {
            check();
            if (last < 0) {
                throw new IllegalStateException();
            }
            list.removeAt(last);
            if (last < cursor) {
                cursor--;
            }
            last = -1;
            expected++;
        }

        public void set(E e) {
            if (last < 0) {
                throw new IllegalStateException();
            }
            check();
            list.ring.set(last, e);
        }

        public void add(E e) {
            check();
            last = -1;
            list.add(cursor, e);
            cursor++;
            expected++;
        }
    }
}
