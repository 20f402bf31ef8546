package java.util;

import java.util.function.Consumer;
import java.util.function.Predicate;

/** The keys of a map as a set to which elements may be added. */
final class SetOfMap<E> extends AbstractSet<E> implements java.io.Serializable {
    private final Map<E, Boolean> map;
    private final Set<E> keys;

    SetOfMap(Map<E, Boolean> map) {
        if (!map.isEmpty()) {
            throw new IllegalArgumentException("Map is non-empty");
        }
        this.map = map;
        keys = map.keySet();
    }

    public void clear() {
        map.clear();
    }

    public int size() {
        return map.size();
    }

    public boolean isEmpty() {
        return map.isEmpty();
    }

    public boolean contains(Object o) {
        return map.containsKey(o);
    }

    public boolean remove(Object o) {
        return map.remove(o) != null;
    }

    public boolean add(E e) {
        return map.put(e, Boolean.TRUE) == null;
    }

    public Iterator<E> iterator() {
        return keys.iterator();
    }

    public Object[] toArray() {
        return keys.toArray();
    }

    public <T> T[] toArray(T[] a) {
        return keys.toArray(a);
    }

    public String toString() {
        return keys.toString();
    }

    public int hashCode() {
        return keys.hashCode();
    }

    public boolean equals(Object o) {
        return o == this || keys.equals(o);
    }

    public boolean containsAll(Collection<?> c) {
        return keys.containsAll(c);
    }

    public boolean removeAll(Collection<?> c) {
        return keys.removeAll(c);
    }

    public boolean retainAll(Collection<?> c) {
        return keys.retainAll(c);
    }

    public void forEach(Consumer<? super E> action) {
        keys.forEach(action);
    }

    public boolean removeIf(Predicate<? super E> filter) {
        return keys.removeIf(filter);
    }
}
