package java.util;

/** A row of elements in an array whose end is followed by its start, of a length that is a power of two. */
final class Ring {
    private Object[] items = new Object[16];
    private int head;
    int size;

    private void reserve(int count) {
        if (count > items.length) {
            Object[] more = new Object[ArrayList.room(items.length, count)];
            copyTo(more, 0);
            items = more;
            head = 0;
        }
    }

    /** Copies the elements to a place of an array. */
    void copyTo(Object[] target, int at) {
        int first = items.length - head;
        if (first >= size) {
            System.arraycopy(items, head, target, at, size);
        } else {
            System.arraycopy(items, head, target, at, first);
            System.arraycopy(items, 0, target, at + first, size - first);
        }
    }

    /** Moves the elements so that the first one stands at the front of the array. */
    private void straighten() {
        if (head + size > items.length) {
            Object[] same = new Object[items.length];
            copyTo(same, 0);
            items = same;
            head = 0;
        }
    }

    Object get(int at) {
        return items[head + at & items.length - 1];
    }

    Object set(int at, Object element) {
        int place = head + at & items.length - 1;
        Object old = items[place];
        items[place] = element;
        return old;
    }

    void addLast(Object element) {
        if (size == items.length) {
            reserve(size + 1);
        }
        items[head + size & items.length - 1] = element;
        size++;
    }

    void addFirst(Object element) {
        if (size == items.length) {
            reserve(size + 1);
        }
        head = head - 1 & items.length - 1;
        items[head] = element;
        size++;
    }

    Object removeFirst() {
        Object old = items[head];
        head = head + 1 & items.length - 1;
        size--;
        return old;
    }

    Object removeLast() {
        size--;
        return items[head + size & items.length - 1];
    }

    void insert(int at, Object element) {
        if (at == size) {
            addLast(element);
        } else if (at == 0) {
            addFirst(element);
        } else {
            makeGap(at, 1);
            items[head + at] = element;
        }
    }

    /** Makes room for some elements before the one at a place; afterwards no element stands behind the end of the array. */
    private void makeGap(int at, int count) {
        reserve(size + count);
        straighten();
        if (head + size + count > items.length) {
            System.arraycopy(items, head, items, 0, size);
            head = 0;
        }
        System.arraycopy(items, head + at, items, head + at + count, size - at);
        size += count;
    }

    void insertAll(int at, Object[] elements) {
        makeGap(at, elements.length);
        System.arraycopy(elements, 0, items, head + at, elements.length);
    }

    Object remove(int at) {
        if (at == 0) {
            return removeFirst();
        }
        if (at == size - 1) {
            return removeLast();
        }
        straighten();
        Object old = items[head + at];
        System.arraycopy(items, head + at + 1, items, head + at, size - at - 1);
        size--;
        return old;
    }

    int indexOf(Object o) {
        for (int i = 0; i < size; i++) {
            Object element = get(i);
            if (o == null ? element == null : o.equals(element)) {
                return i;
            }
        }
        return -1;
    }

    int lastIndexOf(Object o) {
        for (int i = size - 1; i >= 0; i--) {
            Object element = get(i);
            if (o == null ? element == null : o.equals(element)) {
                return i;
            }
        }
        return -1;
    }

    Object[] toArray() {
        Object[] all = new Object[size];
        copyTo(all, 0);
        return all;
    }

    <T> T[] toArray(T[] a) {
        T[] result = ArrayKinds.withRoom(a, size);
        copyTo(result, 0);
        if (result.length > size) {
            result[size] = null;
        }
        return result;
    }

    /** Keeps the elements at the places that are marked so, in their order. */
    void keep(boolean[] kept) {
        int count = size;
        int write = 0;
        for (int i = 0; i < count; i++) {
            if (kept[i]) {
                set(write, get(i));
                write++;
            }
        }
        size = write;
    }

    void clear() {
        size = 0;
        head = 0;
    }
}
