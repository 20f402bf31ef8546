package java.util;

import java.util.function.Consumer;
import java.util.function.Predicate;
import java.util.function.UnaryOperator;
import varexj.lang.ObjectMembers;

/**
 * A list in an array. The array begins with 16 places and grows fourfold up to 1,024, so that configurations whose lists differ a little in length
 * share one array. What stands behind the last element is not cleared.
 */
public class ArrayList<E> extends AbstractList<E> implements List<E>, RandomAccess, Cloneable, java.io.Serializable {
    private static final int FIRST = 16;

    transient Object[] items;
    private int size;
    /** The count of changes at which only {@code ensureCapacity} was called: whether a Java machine counts that isn't known. */
    private int uncertain;

    public ArrayList() {
        items = new Object[FIRST];
    }

    public ArrayList(int initialCapacity) {
        if (initialCapacity < 0) {
            throw new IllegalArgumentException("Illegal Capacity: " + initialCapacity);
        }
        items = new Object[room(FIRST, initialCapacity)];
    }

    public ArrayList(Collection<? extends E> c) {
        Object[] others = c.toArray();
        items = new Object[room(FIRST, others.length)];
        size = others.length;
        System.arraycopy(others, 0, items, 0, others.length);
    }

    /** The first room from one on that holds so many. */
    static int room(int room, int count) {
        while (room < count) {
            room *= room < 1024 ? 4 : 2;
        }
        return room;
    }

    private void reserve(int count) {
        if (count > items.length) {
            Object[] more = new Object[room(items.length, count)];
            System.arraycopy(items, 0, more, 0, size);
            items = more;
        }
    }

    public void trimToSize() {
        modCount++;
    }

    public void ensureCapacity(int minCapacity) {
        if (minCapacity > size && uncertain != modCount) {
            modCount++;
            uncertain = modCount;
        }
    }

    private static native void ensureCapacityWhileIterating();

    /** What an iterator finds that saw another count of changes. */
    final void changed(int expected) {
        if (expected + 1 == uncertain && uncertain == modCount) {
            ensureCapacityWhileIterating();
        }
        throw new ConcurrentModificationException();
    }

    public int size() {
        return size;
    }

    public boolean isEmpty() {
        return size == 0;
    }

    public boolean contains(Object o) {
        return find(o, 0, size) >= 0;
    }

    public int indexOf(Object o) {
        return find(o, 0, size);
    }

    int find(Object o, int from, int to) {
        Object[] all = items;
        if (o == null) {
            for (int i = from; i < to; i++) {
                if (all[i] == null) {
                    return i;
                }
            }
        } else {
            for (int i = from; i < to; i++) {
                if (o.equals(all[i])) {
                    return i;
                }
            }
        }
        return -1;
    }

    public int lastIndexOf(Object o) {
        return findLast(o, 0, size);
    }

    int findLast(Object o, int from, int to) {
        Object[] all = items;
        for (int i = to - 1; i >= from; i--) {
            if (o == null ? all[i] == null : o.equals(all[i])) {
                return i;
            }
        }
        return -1;
    }

    /** A list of its own with the same elements; of this class, also where the list is of a class below. */
    public Object clone() {
        return new ArrayList<E>(this);
    }

    public Object[] toArray() {
        Object[] result = new Object[size];
        System.arraycopy(items, 0, result, 0, size);
        return result;
    }

    public <T> T[] toArray(T[] a) {
        return copied(a, 0, size);
    }

    @SuppressWarnings("unchecked")
    <T> T[] copied(T[] a, int from, int count) {
        T[] result = ArrayKinds.withRoom(a, count);
        System.arraycopy(items, from, result, 0, count);
        if (result.length > count) {
            result[count] = null;
        }
        return result;
    }

    @SuppressWarnings("unchecked")
    public E get(int index) {
        if (index < 0 || index >= size) {
            throw new IndexOutOfBoundsException(outside(index, size));
        }
        return (E) items[index];
    }

    @SuppressWarnings("unchecked")
    public E set(int index, E element) {
        if (index < 0 || index >= size) {
            throw new IndexOutOfBoundsException(outside(index, size));
        }
        E old = (E) items[index];
        items[index] = element;
        return old;
    }

    public boolean add(E e) {
        modCount++;
        if (size == items.length) {
            reserve(size + 1);
        }
        items[size] = e;
        size++;
        return true;
    }

    public void add(int index, E element) {
        if (index < 0 || index > size) {
            throw new IndexOutOfBoundsException(outside(index, size));
        }
        modCount++;
        if (size == items.length) {
            reserve(size + 1);
        }
        System.arraycopy(items, index, items, index + 1, size - index);
        items[index] = element;
        size++;
    }

    @SuppressWarnings("unchecked")
    public E remove(int index) {
        if (index < 0 || index >= size) {
            throw new IndexOutOfBoundsException(outside(index, size));
        }
        E old = (E) items[index];
        drop(index);
        return old;
    }

    private void drop(int index) {
        modCount++;
        size--;
        System.arraycopy(items, index + 1, items, index, size - index);
    }

    public boolean remove(Object o) {
        int at = find(o, 0, size);
        if (at < 0) {
            return false;
        }
        drop(at);
        return true;
    }

    public void clear() {
        modCount++;
        size = 0;
    }

    public boolean addAll(Collection<? extends E> c) {
        Object[] others = c.toArray();
        modCount++;
        if (others.length == 0) {
            return false;
        }
        reserve(size + others.length);
        System.arraycopy(others, 0, items, size, others.length);
        size += others.length;
        return true;
    }

    public boolean addAll(int index, Collection<? extends E> c) {
        if (index < 0 || index > size) {
            throw new IndexOutOfBoundsException(outside(index, size));
        }
        Object[] others = c.toArray();
        modCount++;
        if (others.length == 0) {
            return false;
        }
        reserve(size + others.length);
        System.arraycopy(items, index, items, index + others.length, size - index);
        System.arraycopy(others, 0, items, index, others.length);
        size += others.length;
        return true;
    }

    protected void removeRange(int fromIndex, int toIndex) {
        if (fromIndex > toIndex) {
            throw new IndexOutOfBoundsException("From Index: " + fromIndex + " > To Index: " + toIndex);
        }
        modCount++;
        close(fromIndex, toIndex);
    }

    /** Closes the gap between two places. */
    private void close(int from, int to) {
        System.arraycopy(items, to, items, from, size - to);
        size -= to - from;
    }

    public boolean removeAll(Collection<?> c) {
        return sift(c, false, 0, size);
    }

    public boolean retainAll(Collection<?> c) {
        return sift(c, true, 0, size);
    }

    boolean sift(Collection<?> c, boolean kept, int from, int to) {
        if (c == null) {
            throw new NullPointerException();
        }
        Object[] all = items;
        int read = from;
        while (read < to && c.contains(all[read]) == kept) {
            read++;
        }
        if (read == to) {
            return false;
        }
        int write = read++;
        try {
            for (; read < to; read++) {
                Object element = all[read];
                if (c.contains(element) == kept) {
                    all[write++] = element;
                }
            }
        } finally {
            System.arraycopy(all, read, all, write, to - read);
            write += to - read;
            modCount += to - write;
            close(write, to);
        }
        return true;
    }

    public boolean removeIf(Predicate<? super E> filter) {
        return removeIf(filter, 0, size);
    }

    @SuppressWarnings("unchecked")
    boolean removeIf(Predicate<? super E> filter, int from, int to) {
        if (filter == null) {
            throw new NullPointerException();
        }
        int expected = modCount;
        Object[] all = items;
        boolean[] dead = new boolean[room(FIRST, to)];
        boolean any = false;
        for (int i = from; i < to; i++) {
            if (filter.test((E) all[i])) {
                dead[i] = true;
                any = true;
            }
        }
        if (modCount != expected) {
            changed(expected);
        }
        if (!any) {
            return false;
        }
        modCount++;
        int write = from;
        for (int i = from; i < to; i++) {
            if (!dead[i]) {
                all[write++] = all[i];
            }
        }
        close(write, to);
        return true;
    }

    @SuppressWarnings("unchecked")
    public void forEach(Consumer<? super E> action) {
        if (action == null) {
            throw new NullPointerException();
        }
        int expected = modCount;
        int count = size;
        Object[] all = items;
        for (int i = 0; modCount == expected && i < count; i++) {
            action.accept((E) all[i]);
        }
        if (modCount != expected) {
            changed(expected);
        }
    }

    public void replaceAll(UnaryOperator<E> operator) {
        replaceAll(operator, 0, size);
        modCount++;
    }

    @SuppressWarnings("unchecked")
    void replaceAll(UnaryOperator<E> operator, int from, int to) {
        if (operator == null) {
            throw new NullPointerException();
        }
        int expected = modCount;
        Object[] all = items;
        for (int i = from; modCount == expected && i < to; i++) {
            all[i] = operator.apply((E) all[i]);
        }
        if (modCount != expected) {
            changed(expected);
        }
    }

    @SuppressWarnings("unchecked")
    public void sort(Comparator<? super E> c) {
        int expected = modCount;
        Arrays.sort((E[]) items, 0, size, c);
        if (modCount != expected) {
            changed(expected);
        }
        modCount++;
    }

    public boolean equals(Object o) {
        if (o == this) {
            return true;
        }
        if (!(o instanceof List)) {
            return false;
        }
        int expected = modCount;
        boolean result = equalTo((List<?>) o, 0, size);
        if (modCount != expected) {
            changed(expected);
        }
        return result;
    }

    boolean equalTo(List<?> list, int from, int to) {
        Object[] all = items;
        Iterator<?> others = list.iterator();
        for (int i = from; i < to; i++) {
            if (!others.hasNext()) {
                return false;
            }
            Object mine = all[i];
            Object other = others.next();
            if (!(mine == null ? other == null : mine.equals(other))) {
                return false;
            }
        }
        return !others.hasNext();
    }

    public int hashCode() {
        int expected = modCount;
        int hash = hashOf(0, size);
        if (modCount != expected) {
            changed(expected);
        }
        return hash;
    }

    int hashOf(int from, int to) {
        Object[] all = items;
        int hash = 1;
        for (int i = from; i < to; i++) {
            Object element = all[i];
            hash = 31 * hash + (element == null ? 0 : ObjectMembers.hashCode(element));
        }
        return hash;
    }

    public Iterator<E> iterator() {
        return new Walk<E>(this);
    }

    public ListIterator<E> listIterator() {
        return new ListWalk<E>(this, 0);
    }

    public ListIterator<E> listIterator(int index) {
        if (index < 0 || index > size) {
            throw new IndexOutOfBoundsException("Index: " + index);
        }
        return new ListWalk<E>(this, index);
    }

    public List<E> subList(int fromIndex, int toIndex) {
        checkRange(fromIndex, toIndex, size);
        return new Part<E>(this, null, fromIndex, toIndex - fromIndex);
    }

    /** An iterator over the array. */
    private static class Walk<E> implements Iterator<E> {
        final ArrayList<E> list;
        int cursor;
        int last = -1;
        int expected;

        Walk(ArrayList<E> list) {
            this.list = list;
            expected = list.modCount;
        }

        public boolean hasNext() {
            return cursor != list.size;
        }

        @SuppressWarnings("unchecked")
        public E next() {
            ArrayList<E> in = list;
            if (in.modCount != expected) {
                in.changed(expected);
            }
            int at = cursor;
            if (at >= in.size) {
                throw new NoSuchElementException();
            }
            cursor = at + 1;
            last = at;
            return (E) in.items[at];
        }

        public void remove() {
            if (last < 0) {
                throw new IllegalStateException();
            }
            if (list.modCount != expected) {
                list.changed(expected);
            }
            list.drop(last);
            cursor = last;
            last = -1;
            expected = list.modCount;
        }
    }

    private static final class ListWalk<E> extends Walk<E> implements ListIterator<E> {
        ListWalk(ArrayList<E> list, int index) {
            super(list);
            cursor = index;
        }

        public boolean hasPrevious() {
            return cursor != 0;
        }

        @SuppressWarnings("unchecked")
        public E previous() {
            if (list.modCount != expected) {
                list.changed(expected);
            }
            int at = cursor - 1;
            if (at < 0) {
                throw new NoSuchElementException();
            }
            cursor = at;
            last = at;
            return (E) list.items[at];
        }

        public int nextIndex() {
            return cursor;
        }

        public int previousIndex() {
            return cursor - 1;
        }

        public void set(E e) {
            if (last < 0) {
                throw new IllegalStateException();
            }
            if (list.modCount != expected) {
                list.changed(expected);
            }
            list.set(last, e);
        }

        public void add(E e) {
            if (list.modCount != expected) {
                list.changed(expected);
            }
            int at = cursor;
            list.add(at, e);
            cursor = at + 1;
            last = -1;
            expected = list.modCount;
        }
    }

    /** A part of the list, or a part of a part. */
    private static final class Part<E> extends AbstractList<E> implements RandomAccess {
        private final ArrayList<E> root;
        private final Part<E> parent;
        private final int offset;
        private int size;

        Part(ArrayList<E> root, Part<E> parent, int offset, int size) {
            this.root = root;
            this.parent = parent;
            this.offset = offset;
            this.size = size;
            modCount = parent == null ? root.modCount : parent.modCount;
        }

        private void check() {
            if (root.modCount != modCount) {
                root.changed(modCount);
            }
        }

        private void inside(int index) {
            if (index < 0 || index >= size) {
                throw new IndexOutOfBoundsException(outside(index, size));
            }
        }

        private void between(int index) {
            if (index < 0 || index > size) {
                throw new IndexOutOfBoundsException(outside(index, size));
            }
        }

        private void grown(int more) {
            for (Part<E> part = this; part != null; part = part.parent) {
                part.size += more;
                part.modCount = root.modCount;
            }
        }

        @SuppressWarnings("unchecked")
        public E get(int index) {
            inside(index);
            check();
            return (E) root.items[offset + index];
        }

        public E set(int index, E element) {
            inside(index);
            check();
            return root.set(offset + index, element);
        }

        public int size() {
            check();
            return size;
        }

        public void add(int index, E element) {
            between(index);
            check();
            root.add(offset + index, element);
            grown(1);
        }

        public E remove(int index) {
            inside(index);
            check();
            E old = root.remove(offset + index);
            grown(-1);
            return old;
        }

        protected void removeRange(int fromIndex, int toIndex) {
            check();
            root.removeRange(offset + fromIndex, offset + toIndex);
            grown(fromIndex - toIndex);
        }

        public boolean addAll(Collection<? extends E> c) {
            return addAll(size, c);
        }

        public boolean addAll(int index, Collection<? extends E> c) {
            between(index);
            int count = c.size();
            if (count == 0) {
                return false;
            }
            check();
            root.addAll(offset + index, c);
            grown(count);
            return true;
        }

        public void replaceAll(UnaryOperator<E> operator) {
            root.replaceAll(operator, offset, offset + size);
        }

        public boolean removeAll(Collection<?> c) {
            return sift(c, false);
        }

        public boolean retainAll(Collection<?> c) {
            return sift(c, true);
        }

        private boolean sift(Collection<?> c, boolean kept) {
            check();
            int before = root.size;
            boolean changed = root.sift(c, kept, offset, offset + size);
            if (changed) {
                grown(root.size - before);
            }
            return changed;
        }

        public boolean removeIf(Predicate<? super E> filter) {
            check();
            int before = root.size;
            boolean changed = root.removeIf(filter, offset, offset + size);
            if (changed) {
                grown(root.size - before);
            }
            return changed;
        }

        public Object[] toArray() {
            check();
            Object[] result = new Object[size];
            System.arraycopy(root.items, offset, result, 0, size);
            return result;
        }

        public <T> T[] toArray(T[] a) {
            check();
            return root.copied(a, offset, size);
        }

        public boolean equals(Object o) {
            if (o == this) {
                return true;
            }
            if (!(o instanceof List)) {
                return false;
            }
            boolean result = root.equalTo((List<?>) o, offset, offset + size);
            check();
            return result;
        }

        public int hashCode() {
            int hash = root.hashOf(offset, offset + size);
            check();
            return hash;
        }

        public int indexOf(Object o) {
            int at = root.find(o, offset, offset + size);
            check();
            return at < 0 ? -1 : at - offset;
        }

        public int lastIndexOf(Object o) {
            int at = root.findLast(o, offset, offset + size);
            check();
            return at < 0 ? -1 : at - offset;
        }

        public boolean contains(Object o) {
            return indexOf(o) >= 0;
        }

        public Iterator<E> iterator() {
            return listIterator(0);
        }

        public ListIterator<E> listIterator(int index) {
            check();
            between(index);
            return new PartWalk<E>(this, index);
        }

        public List<E> subList(int fromIndex, int toIndex) {
            checkRange(fromIndex, toIndex, size);
            return new Part<E>(root, this, offset + fromIndex, toIndex - fromIndex);
        }
    }

    private static final class PartWalk<E> implements ListIterator<E> {
        private final Part<E> part;
        private int cursor;
        private int last = -1;
        private int expected;

        PartWalk(Part<E> part, int index) {
            this.part = part;
            cursor = index;
            expected = part.modCount;
        }

        private void check() {
            if (part.root.modCount != expected) {
                part.root.changed(expected);
            }
        }

        public boolean hasNext() {
            return cursor != part.size;
        }

        @SuppressWarnings("unchecked")
        public E next() {
            check();
            int at = cursor;
            if (at >= part.size) {
                throw new NoSuchElementException();
            }
            cursor = at + 1;
            last = at;
            return (E) part.root.items[part.offset + at];
        }

        public boolean hasPrevious() {
            return cursor != 0;
        }

        @SuppressWarnings("unchecked")
        public E previous() {
            check();
            int at = cursor - 1;
            if (at < 0) {
                throw new NoSuchElementException();
            }
            cursor = at;
            last = at;
            return (E) part.root.items[part.offset + at];
        }

        public int nextIndex() {
            return cursor;
        }

        public int previousIndex() {
            return cursor - 1;
        }

        public void remove() {
            if (last < 0) {
                throw new IllegalStateException();
            }
            check();
            part.remove(last);
            cursor = last;
            last = -1;
            expected = part.modCount;
        }

        public void set(E e) {
            if (last < 0) {
                throw new IllegalStateException();
            }
            check();
            part.root.set(part.offset + last, e);
        }

        public void add(E e) {
            check();
            part.add(cursor, e);
            cursor++;
            last = -1;
            expected = part.modCount;
        }
    }
}
