package java.util;

import java.util.function.BiConsumer;
import java.util.function.BiFunction;
import java.util.function.Function;

/** A map in the order of its keys: its entries stand in a sorted array, in which a key is found by halving. No tree is turned. */
public class TreeMap<K, V> extends AbstractMap<K, V> implements NavigableMap<K, V>, Keyed<K>, Cloneable, java.io.Serializable {
    private final Comparator<? super K> comparator;
    private Object[] nodes = new Object[16];
    private int size;
    private int modCount;
    private int removals;
    private transient Set<Map.Entry<K, V>> entries;
    private transient NavigableSet<K> navigableKeys;
    private transient NavigableMap<K, V> descending;

    /** A key and its value in the array. */
    static final class Node<K, V> {
        final K key;
        V value;

        Node(K key, V value) {
            this.key = key;
            this.value = value;
        }
    }

    /**
     * An entry as it is handed out. On a Java machine a removal may move another key into an entry that was handed out before, as its tree has it; so
     * to ask one that was handed out before a removal ends the run.
     */
    private static final class Handed<K, V> implements Map.Entry<K, V> {
        private final TreeMap<K, V> map;
        private final Node<K, V> node;
        private final int removals;

        Handed(TreeMap<K, V> map, Node<K, V> node) {
            this.map = map;
            this.node = node;
            removals = map.removals;
        }

        private Node<K, V> node() {
            if (removals != map.removals) {
                entryBeforeRemoval();
            }
            return node;
        }

        public K getKey() {
            return node().key;
        }

        public V getValue() {
            return node().value;
        }

        public V setValue(V value) {
            return swapped(node(), value);
        }

        public boolean equals(Object o) {
            return isEntry(o, node().key, node.value);
        }

        public int hashCode() {
            return hashOf(node().key, node.value);
        }

        public String toString() {
            return node().key + "=" + node.value;
        }
    }

    private static native void entryBeforeRemoval();

    private static native void rangeAfterRemoval();

    public TreeMap() {
        comparator = null;
    }

    public TreeMap(Comparator<? super K> comparator) {
        this.comparator = comparator;
    }

    public TreeMap(Map<? extends K, ? extends V> m) {
        comparator = null;
        putAll(m);
    }

    public TreeMap(SortedMap<K, ? extends V> m) {
        comparator = m.comparator();
        putAll(m);
    }

    @SuppressWarnings("unchecked")
    final int compare(Object one, Object other) {
        return comparator == null ? ((Comparable<Object>) one).compareTo(other) : ((Comparator<Object>) comparator).compare(one, other);
    }

    @SuppressWarnings("unchecked")
    final Node<K, V> node(int at) {
        return at < 0 || at >= size ? null : (Node<K, V>) nodes[at];
    }

    /** The place of a key, or one below zero by the place where it would come in: -1 for the front. */
    @SuppressWarnings("unchecked")
    private int search(Object key) {
        Object[] all = nodes;
        int low = 0;
        int high = size - 1;
        while (low <= high) {
            int middle = low + high >>> 1;
            int found = compare(key, ((Node<K, V>) all[middle]).key);
            if (found > 0) {
                low = middle + 1;
            } else if (found < 0) {
                high = middle - 1;
            } else {
                return middle;
            }
        }
        return -(low + 1);
    }

    /** The place of a key, as it is asked for by get: a natural order takes no null, and nothing that can't be compared. */
    private int placeOf(Object key) {
        if (comparator == null) {
            if (key == null) {
                throw new NullPointerException();
            }
            Comparable<?> comparable = (Comparable<?>) key;
        }
        return search(key);
    }

    /** The place of the first key that is greater, or that isn't less. */
    final int firstFrom(Object key, boolean inclusive) {
        int at = search(key);
        return at < 0 ? -(at + 1) : inclusive ? at : at + 1;
    }

    private void insert(int at, K key, V value) {
        if (size == nodes.length) {
            Object[] more = new Object[ArrayList.room(nodes.length, size + 1)];
            System.arraycopy(nodes, 0, more, 0, size);
            nodes = more;
        }
        System.arraycopy(nodes, at, nodes, at + 1, size - at);
        nodes[at] = new Node<K, V>(key, value);
        size++;
        modCount++;
    }

    final void delete(int at) {
        modCount++;
        removals++;
        size--;
        System.arraycopy(nodes, at + 1, nodes, at, size - at);
    }

    /** The place of a key that is to be put: the first one is compared with itself. */
    private int placeFor(K key) {
        if (size == 0) {
            compare(key, key);
            return -1;
        }
        return placeOf(key);
    }

    public int size() {
        return size;
    }

    public boolean containsKey(Object key) {
        return placeOf(key) >= 0;
    }

    public boolean containsValue(Object value) {
        for (int i = 0; i < size; i++) {
            if (same(value, node(i).value)) {
                return true;
            }
        }
        return false;
    }

    public V get(Object key) {
        int at = placeOf(key);
        return at < 0 ? null : node(at).value;
    }

    public Comparator<? super K> comparator() {
        return comparator;
    }

    static <K, V> K keyOf(Node<K, V> node) {
        return node == null ? null : node.key;
    }

    static <K, V> K presentKeyOf(Node<K, V> node) {
        if (node == null) {
            throw new NoSuchElementException();
        }
        return node.key;
    }

    /** An entry that stays as it is. */
    static <K, V> Map.Entry<K, V> copyOf(Node<K, V> node) {
        return node == null ? null : new SimpleImmutableEntry<K, V>(node.key, node.value);
    }

    public K firstKey() {
        return presentKeyOf(node(0));
    }

    public K lastKey() {
        return presentKeyOf(node(size - 1));
    }

    public void putAll(Map<? extends K, ? extends V> m) {
        if (m instanceof ImmutableMap) {
            Iterator<? extends Map.Entry<? extends K, ? extends V>> it = ((ImmutableMap<? extends K, ? extends V>) m).anyOrder();
            while (it.hasNext()) {
                Map.Entry<? extends K, ? extends V> entry = it.next();
                put(entry.getKey(), entry.getValue());
            }
        } else {
            super.putAll(m);
        }
    }

    public V put(K key, V value) {
        int at = placeFor(key);
        if (at >= 0) {
            return swapped(node(at), value);
        }
        insert(-(at + 1), key, value);
        return null;
    }

    private static <K, V> V swapped(Node<K, V> node, V value) {
        V old = node.value;
        node.value = value;
        return old;
    }

    public V putIfAbsent(K key, V value) {
        int at = placeFor(key);
        if (at < 0) {
            insert(-(at + 1), key, value);
            return null;
        }
        Node<K, V> node = node(at);
        V old = node.value;
        if (old == null) {
            node.value = value;
        }
        return old;
    }

    private void steady(int expected) {
        if (modCount != expected) {
            throw new ConcurrentModificationException();
        }
    }

    public V computeIfAbsent(K key, Function<? super K, ? extends V> mappingFunction) {
        boolean empty = size == 0;
        int at = empty ? -1 : placeOf(key);
        Node<K, V> node = node(at);
        if (node != null && node.value != null) {
            return node.value;
        }
        int expected = modCount;
        V value = mappingFunction.apply(key);
        steady(expected);
        if (node != null) {
            node.value = value;
        } else if (value != null) {
            if (empty) {
                compare(key, key);
            }
            insert(-(at + 1), key, value);
        }
        return value;
    }

    public V computeIfPresent(K key, BiFunction<? super K, ? super V, ? extends V> remappingFunction) {
        if (remappingFunction == null) {
            throw new NullPointerException();
        }
        int at = placeOf(key);
        return at < 0 || node(at).value == null ? null : remapped(at, key, remappingFunction);
    }

    private V remapped(int at, K key, BiFunction<? super K, ? super V, ? extends V> remappingFunction) {
        int expected = modCount;
        V value = remappingFunction.apply(key, node(at).value);
        steady(expected);
        return set(at, value);
    }

    /** Sets the value at a place, or removes the entry where that is null. */
    private V set(int at, V value) {
        if (value == null) {
            delete(at);
        } else {
            node(at).value = value;
        }
        return value;
    }

    public V compute(K key, BiFunction<? super K, ? super V, ? extends V> remappingFunction) {
        if (remappingFunction == null) {
            throw new NullPointerException();
        }
        boolean empty = size == 0;
        int at = empty ? -1 : placeOf(key);
        if (at >= 0) {
            return remapped(at, key, remappingFunction);
        }
        int expected = modCount;
        V value = remappingFunction.apply(key, null);
        steady(expected);
        if (value != null) {
            if (empty) {
                compare(key, key);
            }
            insert(-(at + 1), key, value);
        }
        return value;
    }

    public V merge(K key, V value, BiFunction<? super V, ? super V, ? extends V> remappingFunction) {
        if (remappingFunction == null || value == null) {
            throw new NullPointerException();
        }
        int at = placeFor(key);
        if (at < 0) {
            insert(-(at + 1), key, value);
            return value;
        }
        V merged = value;
        if (node(at).value != null) {
            int expected = modCount;
            merged = remappingFunction.apply(node(at).value, value);
            steady(expected);
        }
        return set(at, merged);
    }

    public V remove(Object key) {
        int at = placeOf(key);
        if (at < 0) {
            return null;
        }
        V old = node(at).value;
        delete(at);
        return old;
    }

    public void clear() {
        modCount++;
        size = 0;
    }

    /** A map of its own with the same entries; of this class, also where the map is of a class below. */
    public Object clone() {
        return new TreeMap<K, V>((SortedMap<K, V>) this);
    }

    public Map.Entry<K, V> firstEntry() {
        return copyOf(node(0));
    }

    public Map.Entry<K, V> lastEntry() {
        return copyOf(node(size - 1));
    }

    public Map.Entry<K, V> pollFirstEntry() {
        return polled(0);
    }

    public Map.Entry<K, V> pollLastEntry() {
        return polled(size - 1);
    }

    final Map.Entry<K, V> polled(int at) {
        Map.Entry<K, V> entry = copyOf(node(at));
        if (entry != null) {
            delete(at);
        }
        return entry;
    }

    public Map.Entry<K, V> lowerEntry(K key) {
        return copyOf(node(firstFrom(key, true) - 1));
    }

    public K lowerKey(K key) {
        return keyOf(node(firstFrom(key, true) - 1));
    }

    public Map.Entry<K, V> floorEntry(K key) {
        return copyOf(node(firstFrom(key, false) - 1));
    }

    public K floorKey(K key) {
        return keyOf(node(firstFrom(key, false) - 1));
    }

    public Map.Entry<K, V> ceilingEntry(K key) {
        return copyOf(node(firstFrom(key, true)));
    }

    public K ceilingKey(K key) {
        return keyOf(node(firstFrom(key, true)));
    }

    public Map.Entry<K, V> higherEntry(K key) {
        return copyOf(node(firstFrom(key, false)));
    }

    public K higherKey(K key) {
        return keyOf(node(firstFrom(key, false)));
    }

    public Set<K> keySet() {
        return navigableKeySet();
    }

    public NavigableSet<K> navigableKeySet() {
        if (navigableKeys == null) {
            navigableKeys = new SortedKeys<K>(this);
        }
        return navigableKeys;
    }

    public NavigableSet<K> descendingKeySet() {
        return descendingMap().navigableKeySet();
    }

    public Iterator<K> varexjKeys(boolean down) {
        return new KeyWalk<K, V>(this, 0, size, down);
    }

    public Set<Map.Entry<K, V>> entrySet() {
        if (entries == null) {
            entries = new Entries<K, V>(this);
        }
        return entries;
    }

    public NavigableMap<K, V> descendingMap() {
        if (descending == null) {
            descending = new SubMap<K, V>(this, true, null, true, true, null, true, true);
        }
        return descending;
    }

    public NavigableMap<K, V> subMap(K fromKey, boolean fromInclusive, K toKey, boolean toInclusive) {
        return new SubMap<K, V>(this, false, fromKey, fromInclusive, false, toKey, toInclusive, false);
    }

    public NavigableMap<K, V> headMap(K toKey, boolean inclusive) {
        return new SubMap<K, V>(this, true, null, true, false, toKey, inclusive, false);
    }

    public NavigableMap<K, V> tailMap(K fromKey, boolean inclusive) {
        return new SubMap<K, V>(this, false, fromKey, inclusive, true, null, true, false);
    }

    public SortedMap<K, V> subMap(K fromKey, K toKey) {
        return subMap(fromKey, true, toKey, false);
    }

    public SortedMap<K, V> headMap(K toKey) {
        return headMap(toKey, false);
    }

    public SortedMap<K, V> tailMap(K fromKey) {
        return tailMap(fromKey, true);
    }

    public boolean replace(K key, V oldValue, V newValue) {
        int at = placeOf(key);
        if (at < 0 || !same(oldValue, node(at).value)) {
            return false;
        }
        node(at).value = newValue;
        return true;
    }

    public V replace(K key, V value) {
        int at = placeOf(key);
        return at < 0 ? null : swapped(node(at), value);
    }

    public void forEach(BiConsumer<? super K, ? super V> action) {
        if (action == null) {
            throw new NullPointerException();
        }
        int expected = modCount;
        for (int i = 0; i < size; i++) {
            Node<K, V> node = node(i);
            action.accept(node.key, node.value);
            steady(expected);
        }
    }

    public void replaceAll(BiFunction<? super K, ? super V, ? extends V> function) {
        if (function == null) {
            throw new NullPointerException();
        }
        int expected = modCount;
        for (int i = 0; i < size; i++) {
            Node<K, V> node = node(i);
            node.value = function.apply(node.key, node.value);
            steady(expected);
        }
    }

    /** An iterator over places, up or down. What is left was counted when it was made. */
    static class Walk<K, V> {
        final TreeMap<K, V> map;
        private final boolean down;
        /** Whether it ends before the last entry of its direction: where that end is on a Java machine after a removal, its tree decides. */
        private final boolean ranged;
        private int removals;
        private int cursor;
        private int left;
        private int last = -1;
        private int expected;

        Walk(TreeMap<K, V> map, int from, int to, boolean down) {
            this.map = map;
            this.down = down;
            cursor = down ? to - 1 : from;
            left = to - from;
            ranged = down ? from > 0 : to < map.size;
            removals = map.removals;
            expected = map.modCount;
        }

        public final boolean hasNext() {
            if (ranged && map.removals != removals) {
                rangeAfterRemoval();
            }
            return left > 0;
        }

        @SuppressWarnings("unchecked")
        final Node<K, V> nextNode() {
            if (ranged && map.removals != removals) {
                rangeAfterRemoval();
            }
            if (left <= 0) {
                throw new NoSuchElementException();
            }
            if (map.modCount != expected) {
                throw new ConcurrentModificationException();
            }
            int at = cursor;
            cursor = down ? at - 1 : at + 1;
            left--;
            last = at;
            return (Node<K, V>) map.nodes[at];
        }

        public final void remove() {
            if (last < 0) {
                throw new IllegalStateException();
            }
            if (map.modCount != expected) {
                throw new ConcurrentModificationException();
            }
            map.delete(last);
            if (!down) {
                cursor--;
            }
            last = -1;
            removals = map.removals;
            expected = map.modCount;
        }
    }

    static final class KeyWalk<K, V> extends Walk<K, V> implements Iterator<K> {
        KeyWalk(TreeMap<K, V> map, int from, int to, boolean down) {
            super(map, from, to, down);
        }

        public K next() {
            return nextNode().key;
        }
    }

    static final class EntryWalk<K, V> extends Walk<K, V> implements Iterator<Map.Entry<K, V>> {
        EntryWalk(TreeMap<K, V> map, int from, int to, boolean down) {
            super(map, from, to, down);
        }

        public Map.Entry<K, V> next() {
            return new Handed<K, V>(map, nextNode());
        }
    }

    private static final class Entries<K, V> extends AbstractSet<Map.Entry<K, V>> {
        private final TreeMap<K, V> map;

        Entries(TreeMap<K, V> map) {
            this.map = map;
        }

        public Iterator<Map.Entry<K, V>> iterator() {
            return new EntryWalk<K, V>(map, 0, map.size, false);
        }

        private int placeOf(Object o) {
            if (!(o instanceof Map.Entry)) {
                return -1;
            }
            Map.Entry<?, ?> entry = (Map.Entry<?, ?>) o;
            Object value = entry.getValue();
            int at = map.placeOf(entry.getKey());
            return at >= 0 && same(map.node(at).value, value) ? at : -1;
        }

        public boolean contains(Object o) {
            return placeOf(o) >= 0;
        }

        public boolean remove(Object o) {
            int at = placeOf(o);
            if (at < 0) {
                return false;
            }
            map.delete(at);
            return true;
        }

        public int size() {
            return map.size;
        }

        public void clear() {
            map.clear();
        }
    }
}
