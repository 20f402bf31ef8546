package java.util;

/** What a collection can do over its iterator and its size. */
public abstract class AbstractCollection<E> implements Collection<E> {
    protected AbstractCollection() {
    }

    public abstract Iterator<E> iterator();

    public abstract int size();

    public boolean isEmpty() {
        return size() == 0;
    }

    public boolean contains(Object o) {
        for (Iterator<E> it = iterator(); it.hasNext();) {
            E element = it.next();
            if (o == null ? element == null : o.equals(element)) {
                return true;
            }
        }
        return false;
    }

    /** The elements, as many as the iterator gives: it may give others than the size says. */
    public Object[] toArray() {
        return filled(new Object[size()]);
    }

    @SuppressWarnings("unchecked")
    public <T> T[] toArray(T[] a) {
        int size = size();
        Object[] array = filled(ArrayKinds.withRoom(a, size));
        if (array != a && a.length >= array.length) {
            System.arraycopy(array, 0, a, 0, array.length);
            array = a;
        }
        return (T[]) array;
    }

    private Object[] filled(Object[] array) {
        Iterator<E> it = iterator();
        int size = size();
        int count = 0;
        while (count < array.length) {
            if (!it.hasNext()) {
                return count < size ? shortened(array, count) : ended(array, count);
            }
            array[count++] = it.next();
        }
        return it.hasNext() ? lengthened(array, it) : array;
    }

    private static Object[] ended(Object[] array, int count) {
        array[count] = null;
        return array;
    }

    private static Object[] shortened(Object[] array, int count) {
        Object[] result = ArrayKinds.like(array, count);
        System.arraycopy(array, 0, result, 0, count);
        return result;
    }

    private static Object[] lengthened(Object[] array, Iterator<?> it) {
        ArrayList<Object> more = new ArrayList<Object>();
        while (it.hasNext()) {
            more.add(it.next());
        }
        Object[] result = ArrayKinds.like(array, array.length + more.size());
        System.arraycopy(array, 0, result, 0, array.length);
        System.arraycopy(more.toArray(), 0, result, array.length, more.size());
        return result;
    }

    public boolean add(E e) {
        throw new UnsupportedOperationException();
    }

    public boolean remove(Object o) {
        for (Iterator<E> it = iterator(); it.hasNext();) {
            E element = it.next();
            if (o == null ? element == null : o.equals(element)) {
                it.remove();
                return true;
            }
        }
        return false;
    }

    public boolean containsAll(Collection<?> c) {
        for (Iterator<?> it = ImmutableSet.anyOrder(c); it.hasNext();) {
            if (!contains(it.next())) {
                return false;
            }
        }
        return true;
    }

    public boolean addAll(Collection<? extends E> c) {
        boolean changed = false;
        for (Iterator<? extends E> it = c.iterator(); it.hasNext();) {
            if (add(it.next())) {
                changed = true;
            }
        }
        return changed;
    }

    public boolean removeAll(Collection<?> c) {
        return sift(c, true);
    }

    public boolean retainAll(Collection<?> c) {
        return sift(c, false);
    }

    private boolean sift(Collection<?> c, boolean contained) {
        if (c == null) {
            throw new NullPointerException();
        }
        boolean changed = false;
        for (Iterator<E> it = iterator(); it.hasNext();) {
            if (c.contains(it.next()) == contained) {
                it.remove();
                changed = true;
            }
        }
        return changed;
    }

    public void clear() {
        for (Iterator<E> it = iterator(); it.hasNext();) {
            it.next();
            it.remove();
        }
    }

    public String toString() {
        Iterator<E> it = iterator();
        if (!it.hasNext()) {
            return "[]";
        }
        StringBuilder text = new StringBuilder("[");
        while (true) {
            E element = it.next();
            if (element == this) {
                text.append("(this Collection)");
            } else {
                text.append(element);
            }
            if (!it.hasNext()) {
                return text.append(']').toString();
            }
            text.append(", ");
        }
    }
}
