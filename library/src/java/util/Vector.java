package java.util;

import java.util.function.Consumer;
import java.util.function.Predicate;
import java.util.function.UnaryOperator;

/** The list of the first releases of Java. Its array has the length that it has on the Java machine, since that can be asked for. */
public class Vector<E> extends AbstractList<E> implements List<E>, RandomAccess, Cloneable, java.io.Serializable {
    protected Object[] elementData;
    protected int elementCount;
    protected int capacityIncrement;

    public Vector() {
        this(10, 0);
    }

    public Vector(int initialCapacity) {
        this(initialCapacity, 0);
    }

    public Vector(int initialCapacity, int capacityIncrement) {
        if (initialCapacity < 0) {
            throw new IllegalArgumentException("Illegal Capacity: " + initialCapacity);
        }
        elementData = new Object[initialCapacity];
        this.capacityIncrement = capacityIncrement;
    }

    public Vector(Collection<? extends E> c) {
        Object[] others = c.toArray();
        elementData = others;
        elementCount = others.length;
    }

    private void resize(int length) {
        Object[] other = new Object[length];
        System.arraycopy(elementData, 0, other, 0, elementCount);
        elementData = other;
    }

    private void reserve(int count) {
        if (count > elementData.length) {
            int length = elementData.length + (capacityIncrement > 0 ? capacityIncrement : elementData.length);
            resize(length < count ? count : length);
        }
    }

    public void copyInto(Object[] anArray) {
        System.arraycopy(elementData, 0, anArray, 0, elementCount);
    }

    public void trimToSize() {
        modCount++;
        if (elementCount < elementData.length) {
            resize(elementCount);
        }
    }

    public void ensureCapacity(int minCapacity) {
        if (minCapacity > 0) {
            modCount++;
            reserve(minCapacity);
        }
    }

    public void setSize(int newSize) {
        modCount++;
        reserve(newSize);
        for (int i = elementCount; i < newSize; i++) {
            elementData[i] = null;
        }
        for (int i = newSize; i < elementCount; i++) {
            elementData[i] = null;
        }
        elementCount = newSize;
    }

    public int capacity() {
        return elementData.length;
    }

    public int size() {
        return elementCount;
    }

    public boolean isEmpty() {
        return elementCount == 0;
    }

    public Enumeration<E> elements() {
        final Vector<E> vector = this;
        return new Enumeration<E>() {
            private int at;

            public boolean hasMoreElements() {
                return at < vector.elementCount;
            }

            public E nextElement() {
                if (at >= vector.elementCount) {
                    throw new NoSuchElementException("Vector Enumeration");
                }
                at++;
                return vector.at(at - 1);
            }
        };
    }

    @SuppressWarnings("unchecked")
    private E at(int index) {
        return (E) elementData[index];
    }

    private static ArrayIndexOutOfBoundsException beyond(String text) {
        return new ArrayIndexOutOfBoundsException(text);
    }

    public boolean contains(Object o) {
        return indexOf(o, 0) >= 0;
    }

    public int indexOf(Object o) {
        return indexOf(o, 0);
    }

    public int indexOf(Object o, int index) {
        for (int i = index; i < elementCount; i++) {
            if (o == null ? elementData[i] == null : o.equals(elementData[i])) {
                return i;
            }
        }
        return -1;
    }

    public int lastIndexOf(Object o) {
        return lastIndexOf(o, elementCount - 1);
    }

    public int lastIndexOf(Object o, int index) {
        if (index >= elementCount) {
            throw new IndexOutOfBoundsException(index + " >= " + elementCount);
        }
        for (int i = index; i >= 0; i--) {
            if (o == null ? elementData[i] == null : o.equals(elementData[i])) {
                return i;
            }
        }
        return -1;
    }

    public E elementAt(int index) {
        if (index >= elementCount) {
            throw beyond(index + " >= " + elementCount);
        }
        return at(index);
    }

    public E firstElement() {
        if (elementCount == 0) {
            throw new NoSuchElementException();
        }
        return at(0);
    }

    public E lastElement() {
        if (elementCount == 0) {
            throw new NoSuchElementException();
        }
        return at(elementCount - 1);
    }

    public void setElementAt(E obj, int index) {
        if (index >= elementCount) {
            throw beyond(index + " >= " + elementCount);
        }
        elementData[index] = obj;
    }

    public void removeElementAt(int index) {
        if (index >= elementCount) {
            throw beyond(index + " >= " + elementCount);
        }
        if (index < 0) {
            throw beyond("Array index out of range: " + index);
        }
        close(index, index + 1);
        modCount++;
    }

    /** Closes the gap between two places. */
    private void close(int from, int to) {
        System.arraycopy(elementData, to, elementData, from, elementCount - to);
        int count = elementCount - (to - from);
        for (int i = count; i < elementCount; i++) {
            elementData[i] = null;
        }
        elementCount = count;
    }

    public void insertElementAt(E obj, int index) {
        if (index > elementCount) {
            throw beyond(index + " > " + elementCount);
        }
        modCount++;
        reserve(elementCount + 1);
        System.arraycopy(elementData, index, elementData, index + 1, elementCount - index);
        elementData[index] = obj;
        elementCount++;
    }

    public void addElement(E obj) {
        add(obj);
    }

    public boolean removeElement(Object obj) {
        modCount++;
        int at = indexOf(obj, 0);
        if (at < 0) {
            return false;
        }
        removeElementAt(at);
        return true;
    }

    public void removeAllElements() {
        close(0, elementCount);
        modCount++;
    }

    /** A list of its own with the same elements; of this class, also where the list is of a class below. */
    public Object clone() {
        Vector<E> copy = new Vector<E>(this);
        copy.capacityIncrement = capacityIncrement;
        return copy;
    }

    public Object[] toArray() {
        Object[] all = new Object[elementCount];
        System.arraycopy(elementData, 0, all, 0, elementCount);
        return all;
    }

    public <T> T[] toArray(T[] a) {
        T[] result = ArrayKinds.withRoom(a, elementCount);
        System.arraycopy(elementData, 0, result, 0, elementCount);
        if (result.length > elementCount) {
            result[elementCount] = null;
        }
        return result;
    }

    public E get(int index) {
        if (index >= elementCount) {
            throw beyond("Array index out of range: " + index);
        }
        return at(index);
    }

    public E set(int index, E element) {
        if (index >= elementCount) {
            throw beyond("Array index out of range: " + index);
        }
        E old = at(index);
        elementData[index] = element;
        return old;
    }

    public boolean add(E e) {
        modCount++;
        reserve(elementCount + 1);
        elementData[elementCount] = e;
        elementCount++;
        return true;
    }

    public boolean remove(Object o) {
        return removeElement(o);
    }

    public void add(int index, E element) {
        insertElementAt(element, index);
    }

    public E remove(int index) {
        modCount++;
        if (index >= elementCount) {
            throw beyond("Array index out of range: " + index);
        }
        E old = at(index);
        close(index, index + 1);
        return old;
    }

    public void clear() {
        removeAllElements();
    }

    public boolean addAll(Collection<? extends E> c) {
        return putAll(elementCount, c.toArray());
    }

    public boolean addAll(int index, Collection<? extends E> c) {
        if (index < 0 || index > elementCount) {
            throw beyond("Array index out of range: " + index);
        }
        return putAll(index, c.toArray());
    }

    private boolean putAll(int index, Object[] others) {
        modCount++;
        if (others.length == 0) {
            return false;
        }
        reserve(elementCount + others.length);
        System.arraycopy(elementData, index, elementData, index + others.length, elementCount - index);
        System.arraycopy(others, 0, elementData, index, others.length);
        elementCount += others.length;
        return true;
    }

    public boolean removeAll(final Collection<?> c) {
        if (c == null) {
            throw new NullPointerException();
        }
        return removeIf(new Predicate<E>() {
            public boolean test(E element) {
                return c.contains(element);
            }
        });
    }

    public boolean retainAll(final Collection<?> c) {
        if (c == null) {
            throw new NullPointerException();
        }
        return removeIf(new Predicate<E>() {
            public boolean test(E element) {
                return !c.contains(element);
            }
        });
    }

    protected void removeRange(int fromIndex, int toIndex) {
        modCount++;
        close(fromIndex, toIndex);
    }

    private void steady(int expected) {
        if (modCount != expected) {
            throw new ConcurrentModificationException();
        }
    }

    public boolean removeIf(Predicate<? super E> filter) {
        if (filter == null) {
            throw new NullPointerException();
        }
        int expected = modCount;
        int count = elementCount;
        boolean[] dead = new boolean[count];
        boolean any = false;
        for (int i = 0; i < count; i++) {
            if (filter.test(at(i))) {
                dead[i] = true;
                any = true;
            }
        }
        steady(expected);
        if (!any) {
            return false;
        }
        modCount++;
        int write = 0;
        for (int i = 0; i < count; i++) {
            if (!dead[i]) {
                elementData[write++] = elementData[i];
            }
        }
        close(write, count);
        return true;
    }

    public void forEach(Consumer<? super E> action) {
        if (action == null) {
            throw new NullPointerException();
        }
        int expected = modCount;
        int count = elementCount;
        for (int i = 0; modCount == expected && i < count; i++) {
            action.accept(at(i));
        }
        steady(expected);
    }

    public void replaceAll(UnaryOperator<E> operator) {
        if (operator == null) {
            throw new NullPointerException();
        }
        int expected = modCount;
        int count = elementCount;
        for (int i = 0; modCount == expected && i < count; i++) {
            elementData[i] = operator.apply(at(i));
        }
        steady(expected);
        modCount++;
    }

    @SuppressWarnings("unchecked")
    public void sort(Comparator<? super E> c) {
        int expected = modCount;
        Arrays.sort((E[]) elementData, 0, elementCount, c);
        steady(expected);
        modCount++;
    }

    public Iterator<E> iterator() {
        return new Walk<E>(this, 0);
    }

    public ListIterator<E> listIterator() {
        return new Walk<E>(this, 0);
    }

    public ListIterator<E> listIterator(int index) {
        if (index < 0 || index > elementCount) {
            throw new IndexOutOfBoundsException("Index: " + index);
        }
        return new Walk<E>(this, index);
    }

    private static final class Walk<E> implements ListIterator<E> {
        private final Vector<E> vector;
        private int cursor;
        private int last = -1;
        private int expected;

        Walk(Vector<E> vector, int index) {
            this.vector = vector;
            cursor = index;
            expected = vector.modCount;
        }

        public boolean hasNext() {
            return cursor != vector.elementCount;
        }

        public E next() {
            vector.steady(expected);
            if (cursor >= vector.elementCount) {
                throw new NoSuchElementException();
            }
            last = cursor;
            cursor++;
            return vector.at(last);
        }

        public boolean hasPrevious() {
            return cursor != 0;
        }

        public E previous() {
            vector.steady(expected);
            if (cursor - 1 < 0) {
                throw new NoSuchElementException();
            }
            cursor--;
            last = cursor;
            return vector.at(last);
        }

        public int nextIndex() {
            return cursor;
        }

        public int previousIndex() {
            return cursor - 1;
        }

        public void remove() {
            if (last < 0) {
                throw new IllegalStateException();
            }
            vector.steady(expected);
            vector.remove(last);
            expected = vector.modCount;
            cursor = last;
            last = -1;
        }

        public void set(E e) {
            if (last < 0) {
                throw new IllegalStateException();
            }
            vector.steady(expected);
            vector.set(last, e);
        }

        public void add(E e) {
            int at = cursor;
            vector.steady(expected);
            vector.add(at, e);
            expected = vector.modCount;
            cursor = at + 1;
            last = -1;
        }
    }
}
