package java.util;

import varexj.lang.ObjectMembers;

/** A map of the constants of an enum, in their order: a key stands at the place of its ordinal. */
public class EnumMap<K extends Enum<K>, V> extends AbstractMap<K, V> implements java.io.Serializable, Cloneable {
    private Object[] keys = new Object[16];
    private Object[] values = new Object[16];
    private int size;

    public EnumMap(Class<K> keyType) {
        if (keyType == null) {
            throw new NullPointerException();
        }
    }

    public EnumMap(EnumMap<K, ? extends V> m) {
        keys = m.keys.clone();
        values = m.values.clone();
        size = m.size;
    }

    public EnumMap(Map<K, ? extends V> m) {
        if (!(m instanceof EnumMap) && m.isEmpty()) {
            throw new IllegalArgumentException("Specified map is empty");
        }
        putAll(m);
    }

    /** The place of a key that is there, or -1. */
    private int find(Object key) {
        if (!(key instanceof Enum)) {
            return -1;
        }
        int at = ((Enum<?>) key).ordinal();
        return at < keys.length && keys[at] == key ? at : -1;
    }

    public int size() {
        return size;
    }

    public boolean containsValue(Object value) {
        for (int i = 0; i < keys.length; i++) {
            if (keys[i] != null && same(value, values[i])) {
                return true;
            }
        }
        return false;
    }

    public boolean containsKey(Object key) {
        return find(key) >= 0;
    }

    @SuppressWarnings("unchecked")
    public V get(Object key) {
        int at = find(key);
        return at < 0 ? null : (V) values[at];
    }

    @SuppressWarnings("unchecked")
    public V put(K key, V value) {
        if (key == null) {
            throw new NullPointerException();
        }
        int at = ((Enum<?>) key).ordinal();
        if (at >= keys.length) {
            Object[] moreKeys = new Object[ArrayList.room(keys.length, at + 1)];
            Object[] moreValues = new Object[moreKeys.length];
            System.arraycopy(keys, 0, moreKeys, 0, keys.length);
            System.arraycopy(values, 0, moreValues, 0, keys.length);
            keys = moreKeys;
            values = moreValues;
        }
        if (keys[at] == null) {
            keys[at] = key;
            values[at] = value;
            size++;
            return null;
        }
        if (keys[at] != key) {
            throw new ClassCastException();
        }
        V old = (V) values[at];
        values[at] = value;
        return old;
    }

    @SuppressWarnings("unchecked")
    public V remove(Object key) {
        int at = find(key);
        if (at < 0) {
            return null;
        }
        keys[at] = null;
        size--;
        return (V) values[at];
    }

    public void clear() {
        for (int i = 0; i < keys.length; i++) {
            keys[i] = null;
        }
        size = 0;
    }

    /** A map of its own with the same entries; of this class, also where the map is of a class below. */
    public EnumMap<K, V> clone() {
        return new EnumMap<K, V>(this);
    }

    public Set<Map.Entry<K, V>> entrySet() {
        return new Entries<K, V>(this);
    }

    private static final class Entries<K extends Enum<K>, V> extends AbstractSet<Map.Entry<K, V>> {
        private final EnumMap<K, V> map;

        Entries(EnumMap<K, V> map) {
            this.map = map;
        }

        public Iterator<Map.Entry<K, V>> iterator() {
            return new Walk<K, V>(map);
        }

        private int placeOf(Object o) {
            if (!(o instanceof Map.Entry)) {
                return -1;
            }
            int at = map.find(((Map.Entry<?, ?>) o).getKey());
            return at >= 0 && same(map.values[at], ((Map.Entry<?, ?>) o).getValue()) ? at : -1;
        }

        public boolean contains(Object o) {
            return placeOf(o) >= 0;
        }

        public boolean remove(Object o) {
            int at = placeOf(o);
            if (at < 0) {
                return false;
            }
            map.keys[at] = null;
            map.size--;
            return true;
        }

        public int size() {
            return map.size;
        }

        public void clear() {
            map.clear();
        }
    }

    private static final class Walk<K extends Enum<K>, V> implements Iterator<Map.Entry<K, V>> {
        private final EnumMap<K, V> map;
        private int cursor;
        private Place<K, V> last;

        Walk(EnumMap<K, V> map) {
            this.map = map;
        }

        public boolean hasNext() {
            Object[] keys = map.keys;
            while (cursor < keys.length && keys[cursor] == null) {
                cursor++;
            }
            return cursor < keys.length;
        }

        public Map.Entry<K, V> next() {
            if (!hasNext()) {
                throw new NoSuchElementException();
            }
            last = new Place<K, V>(map, cursor);
            cursor++;
            return last;
        }

        public void remove() {
            if (last == null) {
                throw new IllegalStateException();
            }
            if (map.keys[last.at] != null) {
                map.keys[last.at] = null;
                map.size--;
            }
            last.removed = true;
            last = null;
        }
    }

    /** An entry at a place of the map, which stays one of that place also where the key was removed otherwise. */
    private static final class Place<K extends Enum<K>, V> implements Map.Entry<K, V> {
        private final EnumMap<K, V> map;
        private final int at;
        private final Object key;
        private boolean removed;

        Place(EnumMap<K, V> map, int at) {
            this.map = map;
            this.at = at;
            key = map.keys[at];
        }

        private Object value() {
            return map.keys[at] == null ? null : map.values[at];
        }

        private void check() {
            if (removed) {
                throw new IllegalStateException("Entry was removed");
            }
        }

        @SuppressWarnings("unchecked")
        public K getKey() {
            check();
            return (K) key;
        }

        @SuppressWarnings("unchecked")
        public V getValue() {
            check();
            return (V) value();
        }

        @SuppressWarnings("unchecked")
        public V setValue(V value) {
            check();
            V old = (V) value();
            map.keys[at] = key;
            map.values[at] = value;
            return old;
        }

        public boolean equals(Object o) {
            return removed ? o == this : o instanceof Map.Entry && ((Map.Entry<?, ?>) o).getKey() == key && same(value(), ((Map.Entry<?, ?>) o).getValue());
        }

        public int hashCode() {
            return removed ? ObjectMembers.identityHashCode(this) : hashOf(key, value());
        }

        public String toString() {
            return removed ? ObjectMembers.identityToString(this) : key + "=" + value();
        }
    }
}
