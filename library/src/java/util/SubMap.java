package java.util;

import java.util.function.BiFunction;
import java.util.function.Function;

/** A range of a TreeMap, up or down. */
final class SubMap<K, V> extends AbstractMap<K, V> implements NavigableMap<K, V>, Keyed<K>, java.io.Serializable {
    private final TreeMap<K, V> map;
    private final boolean fromStart;
    private final K low;
    private final boolean lowInclusive;
    private final boolean toEnd;
    private final K high;
    private final boolean highInclusive;
    private final boolean down;

    SubMap(TreeMap<K, V> map, boolean fromStart, K low, boolean lowInclusive, boolean toEnd, K high, boolean highInclusive, boolean down) {
        if (!fromStart && !toEnd) {
            if (map.compare(low, high) > 0) {
                throw new IllegalArgumentException("fromKey > toKey");
            }
        } else {
            if (!fromStart) {
                map.compare(low, low);
            }
            if (!toEnd) {
                map.compare(high, high);
            }
        }
        this.map = map;
        this.fromStart = fromStart;
        this.low = low;
        this.lowInclusive = lowInclusive;
        this.toEnd = toEnd;
        this.high = high;
        this.highInclusive = highInclusive;
        this.down = down;
    }

    private boolean tooLow(Object key) {
        if (fromStart) {
            return false;
        }
        int found = map.compare(key, low);
        return found < 0 || found == 0 && !lowInclusive;
    }

    private boolean tooHigh(Object key) {
        if (toEnd) {
            return false;
        }
        int found = map.compare(key, high);
        return found > 0 || found == 0 && !highInclusive;
    }

    private boolean inRange(Object key) {
        return !tooLow(key) && !tooHigh(key);
    }

    /** Whether a key may be an end of a range of this range. */
    private boolean inRange(Object key, boolean inclusive) {
        if (inclusive) {
            return inRange(key);
        }
        return (fromStart || map.compare(key, low) >= 0) && (toEnd || map.compare(high, key) >= 0);
    }

    private int from() {
        return fromStart ? 0 : map.firstFrom(low, lowInclusive);
    }

    private int to() {
        return toEnd ? map.size() : map.firstFrom(high, !highInclusive);
    }

    private TreeMap.Node<K, V> within(int at) {
        TreeMap.Node<K, V> node = map.node(at);
        return node == null || tooLow(node.key) || tooHigh(node.key) ? null : node;
    }

    private TreeMap.Node<K, V> lowest() {
        return within(from());
    }

    private TreeMap.Node<K, V> highest() {
        return within(to() - 1);
    }

    /** The first node whose key is greater in the order of the map, or isn't less. */
    private TreeMap.Node<K, V> above(Object key, boolean inclusive) {
        return tooLow(key) ? lowest() : within(map.firstFrom(key, inclusive));
    }

    /** The last node whose key is less in the order of the map, or isn't greater. */
    private TreeMap.Node<K, V> below(Object key, boolean inclusive) {
        return tooHigh(key) ? highest() : within(map.firstFrom(key, !inclusive) - 1);
    }

    private TreeMap.Node<K, V> after(Object key, boolean inclusive) {
        return down ? below(key, inclusive) : above(key, inclusive);
    }

    private TreeMap.Node<K, V> before(Object key, boolean inclusive) {
        return down ? above(key, inclusive) : below(key, inclusive);
    }

    private TreeMap.Node<K, V> first() {
        return down ? highest() : lowest();
    }

    private TreeMap.Node<K, V> last() {
        return down ? lowest() : highest();
    }

    public boolean isEmpty() {
        return size() == 0;
    }

    public int size() {
        if (fromStart && toEnd) {
            return map.size();
        }
        int count = to() - from();
        return count < 0 ? 0 : count;
    }

    public boolean containsKey(Object key) {
        return inRange(key) && map.containsKey(key);
    }

    private void wantRange(Object key) {
        if (!inRange(key)) {
            throw new IllegalArgumentException("key out of range");
        }
    }

    public V put(K key, V value) {
        wantRange(key);
        return map.put(key, value);
    }

    public V putIfAbsent(K key, V value) {
        wantRange(key);
        return map.putIfAbsent(key, value);
    }

    public V merge(K key, V value, BiFunction<? super V, ? super V, ? extends V> remappingFunction) {
        wantRange(key);
        return map.merge(key, value, remappingFunction);
    }

    public V computeIfAbsent(K key, Function<? super K, ? extends V> mappingFunction) {
        if (!inRange(key)) {
            if (mappingFunction.apply(key) == null) {
                return null;
            }
            throw new IllegalArgumentException("key out of range");
        }
        return map.computeIfAbsent(key, mappingFunction);
    }

    public V compute(K key, BiFunction<? super K, ? super V, ? extends V> remappingFunction) {
        if (!inRange(key)) {
            if (remappingFunction.apply(key, null) == null) {
                return null;
            }
            throw new IllegalArgumentException("key out of range");
        }
        return map.compute(key, remappingFunction);
    }

    public V computeIfPresent(K key, BiFunction<? super K, ? super V, ? extends V> remappingFunction) {
        return inRange(key) ? map.computeIfPresent(key, remappingFunction) : null;
    }

    public V get(Object key) {
        return inRange(key) ? map.get(key) : null;
    }

    public V remove(Object key) {
        return inRange(key) ? map.remove(key) : null;
    }

    public Comparator<? super K> comparator() {
        return down ? Comparators.reversed(map.comparator()) : map.comparator();
    }

    public Map.Entry<K, V> ceilingEntry(K key) {
        return TreeMap.copyOf(after(key, true));
    }

    public K ceilingKey(K key) {
        return TreeMap.keyOf(after(key, true));
    }

    public Map.Entry<K, V> higherEntry(K key) {
        return TreeMap.copyOf(after(key, false));
    }

    public K higherKey(K key) {
        return TreeMap.keyOf(after(key, false));
    }

    public Map.Entry<K, V> floorEntry(K key) {
        return TreeMap.copyOf(before(key, true));
    }

    public K floorKey(K key) {
        return TreeMap.keyOf(before(key, true));
    }

    public Map.Entry<K, V> lowerEntry(K key) {
        return TreeMap.copyOf(before(key, false));
    }

    public K lowerKey(K key) {
        return TreeMap.keyOf(before(key, false));
    }

    public K firstKey() {
        return TreeMap.presentKeyOf(first());
    }

    public K lastKey() {
        return TreeMap.presentKeyOf(last());
    }

    public Map.Entry<K, V> firstEntry() {
        return TreeMap.copyOf(first());
    }

    public Map.Entry<K, V> lastEntry() {
        return TreeMap.copyOf(last());
    }

    public Map.Entry<K, V> pollFirstEntry() {
        return polled(!down);
    }

    public Map.Entry<K, V> pollLastEntry() {
        return polled(down);
    }

    private Map.Entry<K, V> polled(boolean lowest) {
        int at = lowest ? from() : to() - 1;
        return within(at) == null ? null : map.polled(at);
    }

    public NavigableMap<K, V> descendingMap() {
        return new SubMap<K, V>(map, fromStart, low, lowInclusive, toEnd, high, highInclusive, !down);
    }

    public NavigableSet<K> navigableKeySet() {
        return new SortedKeys<K>(this);
    }

    public NavigableSet<K> descendingKeySet() {
        return descendingMap().navigableKeySet();
    }

    public Set<K> keySet() {
        return navigableKeySet();
    }

    private int start() {
        return from();
    }

    /** The end of the range, which isn't before its start. */
    private int end(int start) {
        int to = to();
        return to < start ? start : to;
    }

    public Iterator<K> varexjKeys(boolean reversed) {
        int start = start();
        return new TreeMap.KeyWalk<K, V>(map, start, end(start), down != reversed);
    }

    public NavigableMap<K, V> subMap(K fromKey, boolean fromInclusive, K toKey, boolean toInclusive) {
        wantEnd(fromKey, fromInclusive, "fromKey out of range");
        wantEnd(toKey, toInclusive, "toKey out of range");
        return down ? new SubMap<K, V>(map, false, toKey, toInclusive, false, fromKey, fromInclusive, true)
                : new SubMap<K, V>(map, false, fromKey, fromInclusive, false, toKey, toInclusive, false);
    }

    public NavigableMap<K, V> headMap(K toKey, boolean inclusive) {
        wantEnd(toKey, inclusive, "toKey out of range");
        return down ? new SubMap<K, V>(map, false, toKey, inclusive, toEnd, high, highInclusive, true)
                : new SubMap<K, V>(map, fromStart, low, lowInclusive, false, toKey, inclusive, false);
    }

    public NavigableMap<K, V> tailMap(K fromKey, boolean inclusive) {
        wantEnd(fromKey, inclusive, "fromKey out of range");
        return down ? new SubMap<K, V>(map, fromStart, low, lowInclusive, false, fromKey, inclusive, true)
                : new SubMap<K, V>(map, false, fromKey, inclusive, toEnd, high, highInclusive, false);
    }

    private void wantEnd(K key, boolean inclusive, String message) {
        if (!inRange(key, inclusive)) {
            throw new IllegalArgumentException(message);
        }
    }

    public SortedMap<K, V> subMap(K fromKey, K toKey) {
        return subMap(fromKey, true, toKey, false);
    }

    public SortedMap<K, V> headMap(K toKey) {
        return headMap(toKey, false);
    }

    public SortedMap<K, V> tailMap(K fromKey) {
        return tailMap(fromKey, true);
    }

    public Set<Map.Entry<K, V>> entrySet() {
        return new Entries<K, V>(this);
    }

    private static final class Entries<K, V> extends AbstractSet<Map.Entry<K, V>> {
        private final SubMap<K, V> part;

        Entries(SubMap<K, V> part) {
            this.part = part;
        }

        public int size() {
            return part.size();
        }

        public Iterator<Map.Entry<K, V>> iterator() {
            int start = part.start();
            return new TreeMap.EntryWalk<K, V>(part.map, start, part.end(start), part.down);
        }

        public boolean contains(Object o) {
            return o instanceof Map.Entry && part.inRange(((Map.Entry<?, ?>) o).getKey()) && part.map.entrySet().contains(o);
        }

        public boolean remove(Object o) {
            return o instanceof Map.Entry && part.inRange(((Map.Entry<?, ?>) o).getKey()) && part.map.entrySet().remove(o);
        }
    }
}
