package java.util;

import java.util.function.BiConsumer;
import java.util.function.BiFunction;
import java.util.function.Function;
import varexj.lang.ObjectMembers;

/**
 * The map of hashes of the first releases of Java. Its table is the Java machine's, since the order shows when it grew. It hands out from the last
 * bucket to the first, and in a bucket the entry first that came last.
 */
public class Hashtable<K, V> extends Dictionary<K, V> implements Map<K, V>, Cloneable, java.io.Serializable {
    private Object[] table;
    private int count;
    private int threshold;
    private int modCount;

    private static final class Node<K, V> implements Map.Entry<K, V> {
        private final int hash;
        private final K key;
        private V value;
        private Node<K, V> next;

        Node(int hash, K key, V value, Node<K, V> next) {
            this.hash = hash;
            this.key = key;
            this.value = value;
            this.next = next;
        }

        public K getKey() {
            return key;
        }

        public V getValue() {
            return value;
        }

        public V setValue(V value) {
            if (value == null) {
                throw new NullPointerException();
            }
            V old = this.value;
            this.value = value;
            return old;
        }

        public boolean equals(Object o) {
            return AbstractMap.isEntry(o, key, value);
        }

        public int hashCode() {
            return hash ^ (value == null ? 0 : ObjectMembers.hashCode(value));
        }

        public String toString() {
            return key.toString() + "=" + value.toString();
        }
    }

    public Hashtable() {
        this(11);
    }

    public Hashtable(int initialCapacity) {
        if (initialCapacity < 0) {
            throw new IllegalArgumentException("Illegal Capacity: " + initialCapacity);
        }
        table = new Object[initialCapacity == 0 ? 1 : initialCapacity];
        threshold = threeQuarters(table.length);
    }

    public Hashtable(Map<? extends K, ? extends V> t) {
        this(2 * t.size() > 11 ? 2 * t.size() : 11);
        putAll(t);
    }

    private static int threeQuarters(int length) {
        return (int) (3L * length / 4);
    }

    @SuppressWarnings("unchecked")
    private Node<K, V> bucket(int at) {
        return (Node<K, V>) table[at];
    }

    private int placeOf(int hash) {
        return (hash & Integer.MAX_VALUE) % table.length;
    }

    private static int hashOf(Object key) {
        if (key == null) {
            throw new NullPointerException();
        }
        return ObjectMembers.hashCode(key);
    }

    private Node<K, V> find(int hash, Object key) {
        for (Node<K, V> node = bucket(placeOf(hash)); node != null; node = node.next) {
            if (node.hash == hash && node.key.equals(key)) {
                return node;
            }
        }
        return null;
    }

    /** Moves the entries into a longer table, in which those of a bucket stand the other way round. */
    private void grow() {
        Object[] old = table;
        table = new Object[2 * old.length + 1];
        modCount++;
        threshold = threeQuarters(table.length);
        for (int i = old.length - 1; i >= 0; i--) {
            moveBucket(old[i]);
        }
    }

    @SuppressWarnings("unchecked")
    private void moveBucket(Object first) {
        Node<K, V> next;
        for (Node<K, V> node = (Node<K, V>) first; node != null; node = next) {
            next = node.next;
            int at = placeOf(node.hash);
            node.next = bucket(at);
            table[at] = node;
        }
    }

    private void insert(int hash, K key, V value) {
        if (count >= threshold) {
            grow();
        }
        int at = placeOf(hash);
        table[at] = new Node<K, V>(hash, key, value, bucket(at));
        count++;
        modCount++;
    }

    private void delete(Node<K, V> gone) {
        int at = placeOf(gone.hash);
        Node<K, V> before = null;
        for (Node<K, V> node = bucket(at); node != gone; node = node.next) {
            before = node;
        }
        if (before == null) {
            table[at] = gone.next;
        } else {
            before.next = gone.next;
        }
        modCount++;
        count--;
    }

    /** The value of an entry that is removed; the entry, as on the Java machine, is left without one. */
    private V taken(Node<K, V> node) {
        V value = node.value;
        delete(node);
        node.value = null;
        return value;
    }

    /** The entries in the order in which they are handed out. */
    private Object[] ordered() {
        Object[] all = new Object[count];
        int filled = 0;
        for (int i = table.length - 1; i >= 0; i--) {
            for (Node<K, V> node = bucket(i); node != null; node = node.next) {
                all[filled++] = node;
            }
        }
        return all;
    }

    /** The entries from the first bucket to the last: so forEach and replaceAll go. */
    private Object[] upward() {
        Object[] all = new Object[count];
        int filled = 0;
        for (int i = 0; i < table.length; i++) {
            for (Node<K, V> node = bucket(i); node != null; node = node.next) {
                all[filled++] = node;
            }
        }
        return all;
    }

    public int size() {
        return count;
    }

    public boolean isEmpty() {
        return count == 0;
    }

    public Enumeration<K> keys() {
        return count == 0 ? Collections.<K>emptyEnumeration() : new KeyWalk<K, V>(this, false);
    }

    public Enumeration<V> elements() {
        return count == 0 ? Collections.<V>emptyEnumeration() : new ValueWalk<K, V>(this, false);
    }

    public boolean contains(Object value) {
        if (value == null) {
            throw new NullPointerException();
        }
        Object[] all = ordered();
        for (int i = 0; i < all.length; i++) {
            if (((Node<?, ?>) all[i]).value.equals(value)) {
                return true;
            }
        }
        return false;
    }

    public boolean containsValue(Object value) {
        return contains(value);
    }

    public boolean containsKey(Object key) {
        return find(hashOf(key), key) != null;
    }

    public V get(Object key) {
        Node<K, V> node = find(hashOf(key), key);
        return node == null ? null : node.value;
    }

    protected void rehash() {
        grow();
    }

    public V put(K key, V value) {
        if (value == null) {
            throw new NullPointerException();
        }
        int hash = hashOf(key);
        Node<K, V> node = find(hash, key);
        if (node != null) {
            return node.setValue(value);
        }
        insert(hash, key, value);
        return null;
    }

    public V remove(Object key) {
        Node<K, V> node = find(hashOf(key), key);
        return node == null ? null : taken(node);
    }

    public void putAll(Map<? extends K, ? extends V> t) {
        for (Iterator<? extends Map.Entry<? extends K, ? extends V>> it = t.entrySet().iterator(); it.hasNext();) {
            Map.Entry<? extends K, ? extends V> entry = it.next();
            put(entry.getKey(), entry.getValue());
        }
    }

    public void clear() {
        modCount++;
        for (int i = 0; i < table.length; i++) {
            table[i] = null;
        }
        count = 0;
    }

    /** A map of its own with the same table; of this class, also where the map is of a class below. */
    public Object clone() {
        Hashtable<K, V> copy = new Hashtable<K, V>();
        copy.table = new Object[table.length];
        copy.threshold = threshold;
        copy.count = count;
        for (int i = 0; i < table.length; i++) {
            Node<K, V> last = null;
            for (Node<K, V> node = bucket(i); node != null; node = node.next) {
                Node<K, V> made = new Node<K, V>(node.hash, node.key, node.value, null);
                if (last == null) {
                    copy.table[i] = made;
                } else {
                    last.next = made;
                }
                last = made;
            }
        }
        return copy;
    }

    public String toString() {
        Object[] all = ordered();
        StringBuilder text = new StringBuilder("{");
        for (int i = 0; i < all.length; i++) {
            Node<?, ?> node = (Node<?, ?>) all[i];
            text.append(node.key == this ? "(this Map)" : node.key.toString());
            text.append('=');
            text.append(node.value == this ? "(this Map)" : node.value.toString());
            if (i + 1 < all.length) {
                text.append(", ");
            }
        }
        return text.append('}').toString();
    }

    public Set<K> keySet() {
        return new Keys<K, V>(this);
    }

    public Set<Map.Entry<K, V>> entrySet() {
        return new Entries<K, V>(this);
    }

    public Collection<V> values() {
        return new Values<K, V>(this);
    }

    public boolean equals(Object o) {
        if (o == this) {
            return true;
        }
        if (!(o instanceof Map) || ((Map<?, ?>) o).size() != count) {
            return false;
        }
        Object[] all = ordered();
        try {
            for (int i = 0; i < all.length; i++) {
                Node<?, ?> node = (Node<?, ?>) all[i];
                if (!node.value.equals(((Map<?, ?>) o).get(node.key))) {
                    return false;
                }
            }
        } catch (ClassCastException e) {
            return false;
        } catch (NullPointerException e) {
            return false;
        }
        return true;
    }

    public int hashCode() {
        Object[] all = ordered();
        int sum = 0;
        for (int i = 0; i < all.length; i++) {
            sum += ((Node<?, ?>) all[i]).hashCode();
        }
        return sum;
    }

    public V getOrDefault(Object key, V defaultValue) {
        V value = get(key);
        return value == null ? defaultValue : value;
    }

    private void steady(int expected) {
        if (modCount != expected) {
            throw new ConcurrentModificationException();
        }
    }

    private static native void changedWhileIterating();

    @SuppressWarnings("unchecked")
    public void forEach(BiConsumer<? super K, ? super V> action) {
        if (action == null) {
            throw new NullPointerException();
        }
        int expected = modCount;
        Object[] all = upward();
        for (int i = 0; i < all.length; i++) {
            Node<K, V> node = (Node<K, V>) all[i];
            action.accept(node.key, node.value);
            if (modCount != expected) {
                changedWhileIterating();
            }
        }
    }

    @SuppressWarnings("unchecked")
    public void replaceAll(BiFunction<? super K, ? super V, ? extends V> function) {
        if (function == null) {
            throw new NullPointerException();
        }
        int expected = modCount;
        Object[] all = upward();
        for (int i = 0; i < all.length; i++) {
            Node<K, V> node = (Node<K, V>) all[i];
            V value = function.apply(node.key, node.value);
            if (value == null) {
                throw new NullPointerException();
            }
            node.value = value;
            if (modCount != expected) {
                changedWhileIterating();
            }
        }
    }

    public V putIfAbsent(K key, V value) {
        if (value == null) {
            throw new NullPointerException();
        }
        int hash = hashOf(key);
        Node<K, V> node = find(hash, key);
        if (node != null) {
            return node.value;
        }
        insert(hash, key, value);
        return null;
    }

    public boolean remove(Object key, Object value) {
        if (value == null) {
            throw new NullPointerException();
        }
        Node<K, V> node = find(hashOf(key), key);
        return node != null && node.value.equals(value) && taken(node) != null;
    }

    public boolean replace(K key, V oldValue, V newValue) {
        if (oldValue == null || newValue == null) {
            throw new NullPointerException();
        }
        Node<K, V> node = find(hashOf(key), key);
        if (node == null || !node.value.equals(oldValue)) {
            return false;
        }
        node.value = newValue;
        return true;
    }

    public V replace(K key, V value) {
        if (value == null) {
            throw new NullPointerException();
        }
        Node<K, V> node = find(hashOf(key), key);
        return node == null ? null : node.setValue(value);
    }

    public V computeIfAbsent(K key, Function<? super K, ? extends V> mappingFunction) {
        if (mappingFunction == null) {
            throw new NullPointerException();
        }
        int hash = hashOf(key);
        Node<K, V> node = find(hash, key);
        if (node != null) {
            return node.value;
        }
        int expected = modCount;
        V value = mappingFunction.apply(key);
        steady(expected);
        if (value != null) {
            insert(hash, key, value);
        }
        return value;
    }

    /** Sets the value of an entry, or removes it where that is null. */
    private V set(Node<K, V> node, V value) {
        if (value == null) {
            delete(node);
        } else {
            node.value = value;
        }
        return value;
    }

    public V computeIfPresent(K key, BiFunction<? super K, ? super V, ? extends V> remappingFunction) {
        if (remappingFunction == null) {
            throw new NullPointerException();
        }
        Node<K, V> node = find(hashOf(key), key);
        if (node == null) {
            return null;
        }
        int expected = modCount;
        V value = remappingFunction.apply(key, node.value);
        steady(expected);
        return set(node, value);
    }

    public V compute(K key, BiFunction<? super K, ? super V, ? extends V> remappingFunction) {
        if (remappingFunction == null) {
            throw new NullPointerException();
        }
        int hash = hashOf(key);
        Node<K, V> node = find(hash, key);
        int expected = modCount;
        V value = remappingFunction.apply(key, node == null ? null : node.value);
        steady(expected);
        if (node != null) {
            return set(node, value);
        }
        if (value != null) {
            insert(hash, key, value);
        }
        return value;
    }

    public V merge(K key, V value, BiFunction<? super V, ? super V, ? extends V> remappingFunction) {
        if (remappingFunction == null) {
            throw new NullPointerException();
        }
        int hash = hashOf(key);
        Node<K, V> node = find(hash, key);
        if (node == null) {
            if (value != null) {
                insert(hash, key, value);
            }
            return value;
        }
        int expected = modCount;
        V merged = remappingFunction.apply(node.value, value);
        steady(expected);
        return set(node, merged);
    }

    /** An iterator over the entries in the order that they had when it was made, or an enumeration, which minds no change of the table. */
    private static class Walk<K, V> {
        private final Hashtable<K, V> map;
        private final Object[] all;
        private final boolean iterates;
        private int cursor;
        private Node<K, V> last;
        private int expected;

        Walk(Hashtable<K, V> map, boolean iterates) {
            this.map = map;
            this.iterates = iterates;
            all = map.ordered();
            expected = map.modCount;
        }

        /** Whether something is left. Of a changed table only the machine's own walk could tell. */
        public final boolean hasNext() {
            if (map.modCount != expected) {
                changedWhileIterating();
            }
            return cursor < all.length;
        }

        public final boolean hasMoreElements() {
            return hasNext();
        }

        @SuppressWarnings("unchecked")
        final Node<K, V> nextNode() {
            if (map.modCount != expected) {
                if (iterates) {
                    throw new ConcurrentModificationException();
                }
                changedWhileIterating();
            }
            if (cursor >= all.length) {
                throw new NoSuchElementException("Hashtable Enumerator");
            }
            last = (Node<K, V>) all[cursor];
            cursor++;
            return last;
        }

        public final void remove() {
            if (!iterates) {
                throw new UnsupportedOperationException();
            }
            if (last == null) {
                throw new IllegalStateException("Hashtable Enumerator");
            }
            map.steady(expected);
            map.delete(last);
            last = null;
            expected = map.modCount;
        }
    }

    private static final class KeyWalk<K, V> extends Walk<K, V> implements Iterator<K>, Enumeration<K> {
        KeyWalk(Hashtable<K, V> map, boolean iterates) {
            super(map, iterates);
        }

        public K next() {
            return nextNode().key;
        }

        public K nextElement() {
            return nextNode().key;
        }
    }

    private static final class ValueWalk<K, V> extends Walk<K, V> implements Iterator<V>, Enumeration<V> {
        ValueWalk(Hashtable<K, V> map, boolean iterates) {
            super(map, iterates);
        }

        public V next() {
            return nextNode().value;
        }

        public V nextElement() {
            return nextNode().value;
        }
    }

    private static final class EntryWalk<K, V> extends Walk<K, V> implements Iterator<Map.Entry<K, V>> {
        EntryWalk(Hashtable<K, V> map) {
            super(map, true);
        }

        public Map.Entry<K, V> next() {
            return nextNode();
        }
    }

    private static final class Keys<K, V> extends AbstractSet<K> {
        private final Hashtable<K, V> map;

        Keys(Hashtable<K, V> map) {
            this.map = map;
        }

        public Iterator<K> iterator() {
            return map.count == 0 ? Collections.<K>emptyIterator() : new KeyWalk<K, V>(map, true);
        }

        public int size() {
            return map.count;
        }

        public boolean contains(Object o) {
            return map.containsKey(o);
        }

        public boolean remove(Object o) {
            return map.remove(o) != null;
        }

        public void clear() {
            map.clear();
        }
    }

    private static final class Values<K, V> extends AbstractCollection<V> {
        private final Hashtable<K, V> map;

        Values(Hashtable<K, V> map) {
            this.map = map;
        }

        public Iterator<V> iterator() {
            return map.count == 0 ? Collections.<V>emptyIterator() : new ValueWalk<K, V>(map, true);
        }

        public int size() {
            return map.count;
        }

        public boolean contains(Object o) {
            return map.containsValue(o);
        }

        public void clear() {
            map.clear();
        }
    }

    private static final class Entries<K, V> extends AbstractSet<Map.Entry<K, V>> {
        private final Hashtable<K, V> map;

        Entries(Hashtable<K, V> map) {
            this.map = map;
        }

        public Iterator<Map.Entry<K, V>> iterator() {
            return map.count == 0 ? Collections.<Map.Entry<K, V>>emptyIterator() : new EntryWalk<K, V>(map);
        }

        private Node<K, V> find(Object o) {
            if (!(o instanceof Map.Entry)) {
                return null;
            }
            Object key = ((Map.Entry<?, ?>) o).getKey();
            Node<K, V> node = map.find(hashOf(key), key);
            return node != null && node.equals(o) ? node : null;
        }

        public boolean contains(Object o) {
            return find(o) != null;
        }

        public boolean remove(Object o) {
            Node<K, V> node = find(o);
            return node != null && map.taken(node) != null;
        }

        public int size() {
            return map.count;
        }

        public void clear() {
            map.clear();
        }
    }
}
