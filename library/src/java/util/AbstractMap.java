package java.util;

import varexj.lang.ObjectMembers;

/** What a map can do over its set of entries. */
public abstract class AbstractMap<K, V> implements Map<K, V> {
    /** The views that were asked for, made at first use. */
    transient Set<K> keySet;
    transient Collection<V> values;

    protected AbstractMap() {
    }

    public int size() {
        return entrySet().size();
    }

    public boolean isEmpty() {
        return size() == 0;
    }

    public boolean containsValue(Object value) {
        for (Iterator<Map.Entry<K, V>> it = entrySet().iterator(); it.hasNext();) {
            V mine = it.next().getValue();
            if (value == null ? mine == null : value.equals(mine)) {
                return true;
            }
        }
        return false;
    }

    private Map.Entry<K, V> entryOf(Object key) {
        for (Iterator<Map.Entry<K, V>> it = entrySet().iterator(); it.hasNext();) {
            Map.Entry<K, V> entry = it.next();
            if (key == null ? entry.getKey() == null : key.equals(entry.getKey())) {
                return entry;
            }
        }
        return null;
    }

    public boolean containsKey(Object key) {
        return entryOf(key) != null;
    }

    public V get(Object key) {
        Map.Entry<K, V> entry = entryOf(key);
        return entry == null ? null : entry.getValue();
    }

    public V put(K key, V value) {
        throw new UnsupportedOperationException();
    }

    public V remove(Object key) {
        for (Iterator<Map.Entry<K, V>> it = entrySet().iterator(); it.hasNext();) {
            Map.Entry<K, V> entry = it.next();
            if (key == null ? entry.getKey() == null : key.equals(entry.getKey())) {
                V old = entry.getValue();
                it.remove();
                return old;
            }
        }
        return null;
    }

    public void putAll(Map<? extends K, ? extends V> m) {
        for (Iterator<? extends Map.Entry<? extends K, ? extends V>> it = m.entrySet().iterator(); it.hasNext();) {
            Map.Entry<? extends K, ? extends V> entry = it.next();
            put(entry.getKey(), entry.getValue());
        }
    }

    public void clear() {
        entrySet().clear();
    }

    public Set<K> keySet() {
        if (keySet == null) {
            keySet = new Keys<K, V>(this);
        }
        return keySet;
    }

    public Collection<V> values() {
        if (values == null) {
            values = new Values<K, V>(this);
        }
        return values;
    }

    public abstract Set<Map.Entry<K, V>> entrySet();

    public boolean equals(Object o) {
        if (o == this) {
            return true;
        }
        if (!(o instanceof Map)) {
            return false;
        }
        Map<?, ?> other = (Map<?, ?>) o;
        if (other.size() != size()) {
            return false;
        }
        try {
            for (Iterator<Map.Entry<K, V>> it = entrySet().iterator(); it.hasNext();) {
                Map.Entry<K, V> entry = it.next();
                K key = entry.getKey();
                V value = entry.getValue();
                if (value == null ? !(other.get(key) == null && other.containsKey(key)) : !value.equals(other.get(key))) {
                    return false;
                }
            }
        } catch (ClassCastException e) {
            return false;
        } catch (NullPointerException e) {
            return false;
        }
        return true;
    }

    public int hashCode() {
        int sum = 0;
        for (Iterator<Map.Entry<K, V>> it = entrySet().iterator(); it.hasNext();) {
            sum += ObjectMembers.hashCode(it.next());
        }
        return sum;
    }

    public String toString() {
        Iterator<Map.Entry<K, V>> it = entrySet().iterator();
        if (!it.hasNext()) {
            return "{}";
        }
        StringBuilder text = new StringBuilder("{");
        while (true) {
            Map.Entry<K, V> entry = it.next();
            appendTo(text, entry.getKey());
            text.append('=');
            appendTo(text, entry.getValue());
            if (!it.hasNext()) {
                return text.append('}').toString();
            }
            text.append(", ");
        }
    }

    private void appendTo(StringBuilder text, Object part) {
        if (part == this) {
            text.append("(this Map)");
        } else {
            text.append(part);
        }
    }

    protected Object clone() throws CloneNotSupportedException {
        return varexj.lang.ObjectMembers.clone(this);
    }

    static boolean same(Object one, Object other) {
        return one == null ? other == null : one.equals(other);
    }

    /** The hash of a key with its value. */
    static int hashOf(Object key, Object value) {
        return (key == null ? 0 : ObjectMembers.hashCode(key)) ^ (value == null ? 0 : ObjectMembers.hashCode(value));
    }

    /** Whether another object is an entry of this key and value. */
    static boolean isEntry(Object o, Object key, Object value) {
        if (!(o instanceof Map.Entry)) {
            return false;
        }
        Map.Entry<?, ?> entry = (Map.Entry<?, ?>) o;
        return same(key, entry.getKey()) && same(value, entry.getValue());
    }

    /** The keys of a map, over its entries. */
    private static final class Keys<K, V> extends AbstractSet<K> {
        private final AbstractMap<K, V> map;

        Keys(AbstractMap<K, V> map) {
            this.map = map;
        }

        public Iterator<K> iterator() {
            final Iterator<Map.Entry<K, V>> it = map.entrySet().iterator();
            return new Iterator<K>() {
                public boolean hasNext() {
                    return it.hasNext();
                }

                public K next() {
                    return it.next().getKey();
                }

                public void remove() {
                    it.remove();
                }
            };
        }

        public int size() {
            return map.size();
        }

        public boolean isEmpty() {
            return map.isEmpty();
        }

        public void clear() {
            map.clear();
        }

        public boolean contains(Object o) {
            return map.containsKey(o);
        }
    }

    /** The values of a map, over its entries. */
    private static final class Values<K, V> extends AbstractCollection<V> {
        private final AbstractMap<K, V> map;

        Values(AbstractMap<K, V> map) {
            this.map = map;
        }

        public Iterator<V> iterator() {
            final Iterator<Map.Entry<K, V>> it = map.entrySet().iterator();
            return new Iterator<V>() {
                public boolean hasNext() {
                    return it.hasNext();
                }

                public V next() {
                    return it.next().getValue();
                }

                public void remove() {
                    it.remove();
                }
            };
        }

        public int size() {
            return map.size();
        }

        public boolean isEmpty() {
            return map.isEmpty();
        }

        public void clear() {
            map.clear();
        }

        public boolean contains(Object o) {
            return map.containsValue(o);
        }
    }

    /** An entry of its own. */
    public static class SimpleEntry<K, V> implements Map.Entry<K, V>, java.io.Serializable {
        private final K key;
        private V value;

        public SimpleEntry(K key, V value) {
            this.key = key;
            this.value = value;
        }

        public SimpleEntry(Map.Entry<? extends K, ? extends V> entry) {
            key = entry.getKey();
            value = entry.getValue();
        }

        public K getKey() {
            return key;
        }

        public V getValue() {
            return value;
        }

        public V setValue(V value) {
            V old = this.value;
            this.value = value;
            return old;
        }

        public boolean equals(Object o) {
            return isEntry(o, key, value);
        }

        public int hashCode() {
            return hashOf(key, value);
        }

        public String toString() {
            return key + "=" + value;
        }
    }

    /** An entry of its own that stays as it is. */
    public static class SimpleImmutableEntry<K, V> implements Map.Entry<K, V>, java.io.Serializable {
        private final K key;
        private final V value;

        public SimpleImmutableEntry(K key, V value) {
            this.key = key;
            this.value = value;
        }

        public SimpleImmutableEntry(Map.Entry<? extends K, ? extends V> entry) {
            key = entry.getKey();
            value = entry.getValue();
        }

        public K getKey() {
            return key;
        }

        public V getValue() {
            return value;
        }

        public V setValue(V value) {
            throw new UnsupportedOperationException();
        }

        public boolean equals(Object o) {
            return isEntry(o, key, value);
        }

        public int hashCode() {
            return hashOf(key, value);
        }

        public String toString() {
            return key + "=" + value;
        }
    }
}
