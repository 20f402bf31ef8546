package java.util;

import java.util.function.BiFunction;
import java.util.function.Function;
import varexj.lang.ObjectMembers;

/**
 * What {@code Map.of} gives: a map without nulls that refuses each change. A Java machine chooses the order of more than one key anew in each run,
 * so asking for it ends the run.
 */
final class ImmutableMap<K, V> extends AbstractMap<K, V> implements java.io.Serializable {
    /** A key that has a value stands at an even place, with its value behind it. */
    private final Object[] both;
    private final int[] hashes;

    private ImmutableMap(Object[] both) {
        this.both = both;
        hashes = new int[both.length >> 1];
    }

    /** A map of keys and values in turn, whose array it keeps. */
    static <K, V> Map<K, V> of(Object[] both) {
        ImmutableMap<K, V> map = new ImmutableMap<K, V>(both);
        for (int i = 0; i < map.hashes.length; i++) {
            Object key = both[2 * i];
            if (key == null || both[2 * i + 1] == null) {
                throw new NullPointerException();
            }
            int hash = ObjectMembers.hashCode(key);
            map.hashes[i] = hash;
            if (map.find(hash, key, i) >= 0) {
                throw new IllegalArgumentException("duplicate key: " + key);
            }
        }
        return map;
    }

    private int find(int hash, Object key, int count) {
        for (int i = 0; i < count; i++) {
            if (hashes[i] == hash && key.equals(both[2 * i])) {
                return i;
            }
        }
        return -1;
    }

    private int find(Object key) {
        if (key == null) {
            throw new NullPointerException();
        }
        return hashes.length == 0 ? -1 : find(ObjectMembers.hashCode(key), key, hashes.length);
    }

    private static native void order();

    private static UnsupportedOperationException refused() {
        return new UnsupportedOperationException();
    }

    /** The entries, for who doesn't show in which order they come. */
    Iterator<Map.Entry<K, V>> anyOrder() {
        return new Walk<K, V>(this);
    }

    public int size() {
        return hashes.length;
    }

    public boolean containsKey(Object key) {
        return find(key) >= 0;
    }

    public boolean containsValue(Object value) {
        if (value == null) {
            throw new NullPointerException();
        }
        for (int i = 0; i < hashes.length; i++) {
            if (value.equals(both[2 * i + 1])) {
                return true;
            }
        }
        return false;
    }

    @SuppressWarnings("unchecked")
    public V get(Object key) {
        int at = find(key);
        return at < 0 ? null : (V) both[2 * at + 1];
    }

    public V getOrDefault(Object key, V defaultValue) {
        V value = get(key);
        return value == null ? defaultValue : value;
    }

    public int hashCode() {
        int sum = 0;
        for (int i = 0; i < hashes.length; i++) {
            sum += hashes[i] ^ ObjectMembers.hashCode(both[2 * i + 1]);
        }
        return sum;
    }

    public boolean equals(Object o) {
        if (o == this) {
            return true;
        }
        if (!(o instanceof Map) || ((Map<?, ?>) o).size() != size()) {
            return false;
        }
        try {
            for (int i = 0; i < hashes.length; i++) {
                if (!both[2 * i + 1].equals(((Map<?, ?>) o).get(both[2 * i]))) {
                    return false;
                }
            }
        } catch (ClassCastException e) {
            return false;
        } catch (NullPointerException e) {
            return false;
        }
        return true;
    }

    public V put(K key, V value) {
        throw refused();
    }

    public void putAll(Map<? extends K, ? extends V> m) {
        throw refused();
    }

    public V putIfAbsent(K key, V value) {
        throw refused();
    }

    public V remove(Object key) {
        throw refused();
    }

    public boolean remove(Object key, Object value) {
        throw refused();
    }

    public V replace(K key, V value) {
        throw refused();
    }

    public boolean replace(K key, V oldValue, V newValue) {
        throw refused();
    }

    public void replaceAll(BiFunction<? super K, ? super V, ? extends V> function) {
        throw refused();
    }

    public V computeIfAbsent(K key, Function<? super K, ? extends V> mappingFunction) {
        throw refused();
    }

    public V computeIfPresent(K key, BiFunction<? super K, ? super V, ? extends V> remappingFunction) {
        throw refused();
    }

    public V compute(K key, BiFunction<? super K, ? super V, ? extends V> remappingFunction) {
        throw refused();
    }

    public V merge(K key, V value, BiFunction<? super V, ? super V, ? extends V> remappingFunction) {
        throw refused();
    }

    public void clear() {
        throw refused();
    }

    public Set<Map.Entry<K, V>> entrySet() {
        final ImmutableMap<K, V> map = this;
        return new AbstractSet<Map.Entry<K, V>>() {
            public int size() {
                return map.size();
            }

            public Iterator<Map.Entry<K, V>> iterator() {
                if (map.hashes.length > 1) {
                    order();
                }
                return map.anyOrder();
            }

            public boolean contains(Object o) {
                if (!(o instanceof Map.Entry)) {
                    return false;
                }
                Object key = ((Map.Entry<?, ?>) o).getKey();
                Object value = map.get(key);
                return value != null && value.equals(((Map.Entry<?, ?>) o).getValue());
            }

            public int hashCode() {
                return map.hashCode();
            }
        };
    }

    private static final class Walk<K, V> implements Iterator<Map.Entry<K, V>> {
        private final ImmutableMap<K, V> map;
        private int cursor;

        Walk(ImmutableMap<K, V> map) {
            this.map = map;
        }

        public boolean hasNext() {
            return cursor < map.hashes.length;
        }

        @SuppressWarnings("unchecked")
        public Map.Entry<K, V> next() {
            if (cursor >= map.hashes.length) {
                throw new NoSuchElementException();
            }
            cursor++;
            return new Pair<K, V>((K) map.both[2 * cursor - 2], (V) map.both[2 * cursor - 1]);
        }

        public void remove() {
            throw refused();
        }
    }

    /** What {@code Map.entry} gives. */
    static final class Pair<K, V> implements Map.Entry<K, V> {
        private final K key;
        private final V value;

        Pair(K key, V value) {
            if (key == null || value == null) {
                throw new NullPointerException();
            }
            this.key = key;
            this.value = value;
        }

        public K getKey() {
            return key;
        }

        public V getValue() {
            return value;
        }

        public V setValue(V value) {
            throw new UnsupportedOperationException("not supported");
        }

        public boolean equals(Object o) {
            return o instanceof Map.Entry && key.equals(((Map.Entry<?, ?>) o).getKey()) && value.equals(((Map.Entry<?, ?>) o).getValue());
        }

        public int hashCode() {
            return ObjectMembers.hashCode(key) ^ ObjectMembers.hashCode(value);
        }

        public String toString() {
            return key + "=" + value;
        }
    }
}
