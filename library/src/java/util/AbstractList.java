package java.util;

import varexj.lang.ObjectMembers;

/** What a list can do over {@code get} and {@code size}. */
public abstract class AbstractList<E> extends AbstractCollection<E> implements List<E> {
    /** How often the list changed its length: by this an iterator finds out that it stands in a changed list. */
    protected transient int modCount = 0;

    protected AbstractList() {
    }

    public boolean add(E e) {
        add(size(), e);
        return true;
    }

    public abstract E get(int index);

    public E set(int index, E element) {
        throw new UnsupportedOperationException();
    }

    public void add(int index, E element) {
        throw new UnsupportedOperationException();
    }

    public E remove(int index) {
        throw new UnsupportedOperationException();
    }

    public int indexOf(Object o) {
        ListIterator<E> it = listIterator();
        while (it.hasNext()) {
            E element = it.next();
            if (o == null ? element == null : o.equals(element)) {
                return it.previousIndex();
            }
        }
        return -1;
    }

    public int lastIndexOf(Object o) {
        ListIterator<E> it = listIterator(size());
        while (it.hasPrevious()) {
            E element = it.previous();
            if (o == null ? element == null : o.equals(element)) {
                return it.nextIndex();
            }
        }
        return -1;
    }

    public void clear() {
        removeRange(0, size());
    }

    public boolean addAll(int index, Collection<? extends E> c) {
        if (index < 0 || index > size()) {
            throw new IndexOutOfBoundsException(outside(index, size()));
        }
        boolean changed = false;
        int at = index;
        for (Iterator<? extends E> it = c.iterator(); it.hasNext();) {
            add(at++, it.next());
            changed = true;
        }
        return changed;
    }

    public Iterator<E> iterator() {
        return new Walk<E>(this, 0);
    }

    public ListIterator<E> listIterator() {
        return listIterator(0);
    }

    public ListIterator<E> listIterator(int index) {
        if (index < 0 || index > size()) {
            throw new IndexOutOfBoundsException(outside(index, size()));
        }
        return new Walk<E>(this, index);
    }

    public List<E> subList(int fromIndex, int toIndex) {
        checkRange(fromIndex, toIndex, size());
        return this instanceof RandomAccess ? new RandomAccessPart<E>(this, null, fromIndex, toIndex - fromIndex)
                : new Part<E>(this, null, fromIndex, toIndex - fromIndex);
    }

    static void checkRange(int fromIndex, int toIndex, int size) {
        if (fromIndex < 0) {
            throw new IndexOutOfBoundsException("fromIndex = " + fromIndex);
        }
        if (toIndex > size) {
            throw new IndexOutOfBoundsException("toIndex = " + toIndex);
        }
        if (fromIndex > toIndex) {
            throw new IllegalArgumentException("fromIndex(" + fromIndex + ") > toIndex(" + toIndex + ")");
        }
    }

    static String outside(int index, int size) {
        return "Index: " + index + ", Size: " + size;
    }

    public boolean equals(Object o) {
        if (o == this) {
            return true;
        }
        if (!(o instanceof List)) {
            return false;
        }
        Iterator<E> mine = iterator();
        Iterator<?> others = ((List<?>) o).iterator();
        while (mine.hasNext() && others.hasNext()) {
            E one = mine.next();
            Object other = others.next();
            if (!(one == null ? other == null : one.equals(other))) {
                return false;
            }
        }
        return !(mine.hasNext() || others.hasNext());
    }

    public int hashCode() {
        int hash = 1;
        for (Iterator<E> it = iterator(); it.hasNext();) {
            E element = it.next();
            hash = 31 * hash + (element == null ? 0 : ObjectMembers.hashCode(element));
        }
        return hash;
    }

    protected void removeRange(int fromIndex, int toIndex) {
        ListIterator<E> it = listIterator(fromIndex);
        for (int i = fromIndex; i < toIndex; i++) {
            it.next();
            it.remove();
        }
    }

    /** An iterator over {@code get}, in both directions. */
    private static final class Walk<E> implements ListIterator<E> {
        private final AbstractList<E> list;
        private int cursor;
        private int last = -1;
        private int expected;

        Walk(AbstractList<E> list, int index) {
            this.list = list;
            cursor = index;
            expected = list.modCount;
        }

        private void check() {
            if (list.modCount != expected) {
                throw new ConcurrentModificationException();
            }
        }

        public boolean hasNext() {
            return cursor != list.size();
        }

        public E next() {
            check();
            try {
                int at = cursor;
                E element = list.get(at);
                last = at;
                cursor = at + 1;
                return element;
            } catch (IndexOutOfBoundsException e) {
                check();
                throw new NoSuchElementException();
            }
        }

        public boolean hasPrevious() {
            return cursor != 0;
        }

        public E previous() {
            check();
            try {
                int at = cursor - 1;
                E element = list.get(at);
                last = at;
                cursor = at;
                return element;
            } catch (IndexOutOfBoundsException e) {
                check();
                throw new NoSuchElementException();
            }
        }

        public int nextIndex() {
            return cursor;
        }

        public int previousIndex() {
            return cursor - 1;
        }

        public void remove() {
            if (last < 0) {
                throw new IllegalStateException();
            }
            check();
            try {
                list.remove(last);
                if (last < cursor) {
                    cursor--;
                }
                last = -1;
                expected = list.modCount;
            } catch (IndexOutOfBoundsException e) {
                throw new ConcurrentModificationException();
            }
        }

        public void set(E e) {
            if (last < 0) {
                throw new IllegalStateException();
            }
            check();
            try {
                list.set(last, e);
                expected = list.modCount;
            } catch (IndexOutOfBoundsException x) {
                throw new ConcurrentModificationException();
            }
        }

        public void add(E e) {
            check();
            try {
                int at = cursor;
                list.add(at, e);
                last = -1;
                cursor = at + 1;
                expected = list.modCount;
            } catch (IndexOutOfBoundsException x) {
                throw new ConcurrentModificationException();
            }
        }
    }

    /** A part of a list, or a part of a part. */
    private static class Part<E> extends AbstractList<E> {
        private final AbstractList<E> root;
        private final Part<E> parent;
        private final int offset;
        private int size;

        Part(AbstractList<E> root, Part<E> parent, int offset, int size) {
            this.root = root;
            this.parent = parent;
            this.offset = offset;
            this.size = size;
            modCount = root.modCount;
        }

        private void check() {
            if (root.modCount != modCount) {
                throw new ConcurrentModificationException();
            }
        }

        private void inside(int index) {
            if (index < 0 || index >= size) {
                throw new IndexOutOfBoundsException(outside(index, size));
            }
        }

        private void between(int index) {
            if (index < 0 || index > size) {
                throw new IndexOutOfBoundsException(outside(index, size));
            }
        }

        private void grown(int more) {
            for (Part<E> part = this; part != null; part = part.parent) {
                part.size += more;
                part.modCount = root.modCount;
            }
        }

        public E get(int index) {
            inside(index);
            check();
            return root.get(offset + index);
        }

        public E set(int index, E element) {
            inside(index);
            check();
            return root.set(offset + index, element);
        }

        public int size() {
            check();
            return size;
        }

        public void add(int index, E element) {
            between(index);
            check();
            root.add(offset + index, element);
            grown(1);
        }

        public E remove(int index) {
            inside(index);
            check();
            E old = root.remove(offset + index);
            grown(-1);
            return old;
        }

        protected void removeRange(int fromIndex, int toIndex) {
            check();
            root.removeRange(offset + fromIndex, offset + toIndex);
            grown(fromIndex - toIndex);
        }

        public boolean addAll(Collection<? extends E> c) {
            return addAll(size, c);
        }

        public boolean addAll(int index, Collection<? extends E> c) {
            between(index);
            int count = c.size();
            if (count == 0) {
                return false;
            }
            check();
            root.addAll(offset + index, c);
            grown(count);
            return true;
        }

        public Iterator<E> iterator() {
            return listIterator(0);
        }

        public ListIterator<E> listIterator(int index) {
            check();
            between(index);
            return new PartWalk<E>(this, root.listIterator(offset + index));
        }

        public List<E> subList(int fromIndex, int toIndex) {
            checkRange(fromIndex, toIndex, size);
            return this instanceof RandomAccess ? new RandomAccessPart<E>(root, this, offset + fromIndex, toIndex - fromIndex)
                    : new Part<E>(root, this, offset + fromIndex, toIndex - fromIndex);
        }
    }

    private static final class RandomAccessPart<E> extends Part<E> implements RandomAccess {
        RandomAccessPart(AbstractList<E> root, Part<E> parent, int offset, int size) {
            super(root, parent, offset, size);
        }
    }

    /** An iterator over a part, by one over the whole list. */
    private static final class PartWalk<E> implements ListIterator<E> {
        private final Part<E> part;
        private final ListIterator<E> it;

        PartWalk(Part<E> part, ListIterator<E> it) {
            this.part = part;
            this.it = it;
        }

        public boolean hasNext() {
            return nextIndex() < part.size;
        }

        public E next() {
            if (hasNext()) {
                return it.next();
            }
            throw new NoSuchElementException();
        }

        public boolean hasPrevious() {
            return previousIndex() >= 0;
        }

        public E previous() {
            if (hasPrevious()) {
                return it.previous();
            }
            throw new NoSuchElementException();
        }

        public int nextIndex() {
            return it.nextIndex() - part.offset;
        }

        public int previousIndex() {
            return it.previousIndex() - part.offset;
        }

        public void remove() {
            it.remove();
            part.grown(-1);
        }

        public void set(E e) {
            it.set(e);
        }

        public void add(E e) {
            it.add(e);
            part.grown(1);
        }
    }
}
