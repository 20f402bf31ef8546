package java.util;

import varexj.lang.ObjectMembers;

/** A map of objects as such. The order is that of insertion: a Java machine chooses it anew in each run. */
public class IdentityHashMap<K, V> extends AbstractMap<K, V> implements Map<K, V>, java.io.Serializable, Cloneable {
    private Object[] nodes = new Object[16];
    private int size;
    private int modCount;

    public IdentityHashMap() {
    }

    public IdentityHashMap(int expectedMaxSize) {
        if (expectedMaxSize < 0) {
            throw new IllegalArgumentException("expectedMaxSize is negative: " + expectedMaxSize);
        }
    }

    public IdentityHashMap(Map<? extends K, ? extends V> m) {
        putAll(m);
    }

    private static final class Node<K, V> implements Map.Entry<K, V> {
        private final K key;
        private V value;

        Node(K key, V value) {
            this.key = key;
            this.value = value;
        }

        public K getKey() {
            return key;
        }

        public V getValue() {
            return value;
        }

        public V setValue(V value) {
            V old = this.value;
            this.value = value;
            return old;
        }

        public boolean equals(Object o) {
            return o instanceof Map.Entry && ((Map.Entry<?, ?>) o).getKey() == key && ((Map.Entry<?, ?>) o).getValue() == value;
        }

        public int hashCode() {
            return ObjectMembers.identityHashCode(key) ^ ObjectMembers.identityHashCode(value);
        }

        public String toString() {
            return key + "=" + value;
        }
    }

    @SuppressWarnings("unchecked")
    private Node<K, V> node(int at) {
        return (Node<K, V>) nodes[at];
    }

    private int find(Object key) {
        for (int i = 0; i < size; i++) {
            if (node(i).key == key) {
                return i;
            }
        }
        return -1;
    }

    private void delete(int at) {
        modCount++;
        size--;
        System.arraycopy(nodes, at + 1, nodes, at, size - at);
    }

    public int size() {
        return size;
    }

    public V get(Object key) {
        int at = find(key);
        return at < 0 ? null : node(at).value;
    }

    public boolean containsKey(Object key) {
        return find(key) >= 0;
    }

    public boolean containsValue(Object value) {
        for (int i = 0; i < size; i++) {
            if (node(i).value == value) {
                return true;
            }
        }
        return false;
    }

    public V put(K key, V value) {
        int at = find(key);
        if (at >= 0) {
            return node(at).setValue(value);
        }
        if (size == nodes.length) {
            Object[] more = new Object[ArrayList.room(nodes.length, size + 1)];
            System.arraycopy(nodes, 0, more, 0, size);
            nodes = more;
        }
        modCount++;
        nodes[size] = new Node<K, V>(key, value);
        size++;
        return null;
    }

    public V remove(Object key) {
        int at = find(key);
        if (at < 0) {
            return null;
        }
        V old = node(at).value;
        delete(at);
        return old;
    }

    public void clear() {
        modCount++;
        size = 0;
    }

    /** A map of its own with the same entries; of this class, also where the map is of a class below. */
    public Object clone() {
        return new IdentityHashMap<K, V>(this);
    }

    public boolean equals(Object o) {
        if (o == this) {
            return true;
        }
        if (o instanceof IdentityHashMap) {
            IdentityHashMap<?, ?> other = (IdentityHashMap<?, ?>) o;
            if (other.size != size) {
                return false;
            }
            for (int i = 0; i < size; i++) {
                int at = other.find(node(i).key);
                if (at < 0 || other.node(at).value != node(i).value) {
                    return false;
                }
            }
            return true;
        }
        return o instanceof Map && entrySet().equals(((Map<?, ?>) o).entrySet());
    }

    public int hashCode() {
        int sum = 0;
        for (int i = 0; i < size; i++) {
            sum += node(i).hashCode();
        }
        return sum;
    }

    public Set<K> keySet() {
        return new Keys<K, V>(this);
    }

    public Set<Map.Entry<K, V>> entrySet() {
        return new Entries<K, V>(this);
    }

    private static class Walk<K, V> {
        private final IdentityHashMap<K, V> map;
        private int cursor;
        private boolean canRemove;
        private int expected;

        Walk(IdentityHashMap<K, V> map) {
            this.map = map;
            expected = map.modCount;
        }

        public final boolean hasNext() {
            return cursor < map.size;
        }

        final Node<K, V> nextNode() {
            if (map.modCount != expected) {
                throw new ConcurrentModificationException();
            }
            if (cursor >= map.size) {
                throw new NoSuchElementException();
            }
            canRemove = true;
            cursor++;
            return map.node(cursor - 1);
        }

        public final void remove() {
            if (!canRemove) {
                throw new IllegalStateException();
            }
            if (map.modCount != expected) {
                throw new ConcurrentModificationException();
            }
            cursor--;
            map.delete(cursor);
            canRemove = false;
            expected = map.modCount;
        }
    }

    private static final class KeyWalk<K, V> extends Walk<K, V> implements Iterator<K> {
        KeyWalk(IdentityHashMap<K, V> map) {
            super(map);
        }

        public K next() {
            return nextNode().key;
        }
    }

    private static final class EntryWalk<K, V> extends Walk<K, V> implements Iterator<Map.Entry<K, V>> {
        EntryWalk(IdentityHashMap<K, V> map) {
            super(map);
        }

        public Map.Entry<K, V> next() {
            return nextNode();
        }
    }

    private static final class Keys<K, V> extends AbstractSet<K> {
        private final IdentityHashMap<K, V> map;

        Keys(IdentityHashMap<K, V> map) {
            this.map = map;
        }

        public Iterator<K> iterator() {
            return new KeyWalk<K, V>(map);
        }

        public int size() {
            return map.size;
        }

        public boolean contains(Object o) {
            return map.containsKey(o);
        }

        public boolean remove(Object o) {
            int at = map.find(o);
            if (at < 0) {
                return false;
            }
            map.delete(at);
            return true;
        }

        public void clear() {
            map.clear();
        }

        public int hashCode() {
            int sum = 0;
            for (int i = 0; i < map.size; i++) {
                sum += ObjectMembers.identityHashCode(map.node(i).key);
            }
            return sum;
        }
    }

    private static final class Entries<K, V> extends AbstractSet<Map.Entry<K, V>> {
        private final IdentityHashMap<K, V> map;

        Entries(IdentityHashMap<K, V> map) {
            this.map = map;
        }

        public Iterator<Map.Entry<K, V>> iterator() {
            return new EntryWalk<K, V>(map);
        }

        private int placeOf(Object o) {
            if (!(o instanceof Map.Entry)) {
                return -1;
            }
            int at = map.find(((Map.Entry<?, ?>) o).getKey());
            return at >= 0 && map.node(at).value == ((Map.Entry<?, ?>) o).getValue() ? at : -1;
        }

        public boolean contains(Object o) {
            return placeOf(o) >= 0;
        }

        public boolean remove(Object o) {
            int at = placeOf(o);
            if (at < 0) {
                return false;
            }
            map.delete(at);
            return true;
        }

        public int size() {
            return map.size;
        }

        public void clear() {
            map.clear();
        }
    }
}
