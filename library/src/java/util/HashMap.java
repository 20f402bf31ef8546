package java.util;

import java.util.function.BiConsumer;
import java.util.function.BiFunction;
import java.util.function.Consumer;
import java.util.function.Function;
import varexj.lang.ObjectMembers;

/**
 * A map that hands its keys out in the order of the Java machine's table, but keeps them otherwise: in 16 chains, in the order of their insertion, which
 * stay as they are until there are 97 entries, and then until there are four times as many. The length that the machine's table would have is only a
 * number. So configurations that differ in a few keys share nearly all of it. Where a bucket of the machine's table would become a tree, whose order is
 * another one, the run ends.
 */
public class HashMap<K, V> extends AbstractMap<K, V> implements Map<K, V>, Cloneable, java.io.Serializable {
    private static final int GREATEST = 1 << 30;
    private static final int CHAINS = 16;

    /** The chains, as soon as something was put. */
    transient Node<K, V>[] chains;
    int size;
    int modCount;
    /** The length of the machine's table, or of its first one as long as it has none, and 0 where that is its own choice. */
    private int capacity;
    /** The count of entries behind which the machine's table grows, as soon as it has one. */
    private int threshold;
    /** Whether entries came here in an order that a Java machine chooses anew in each run. */
    private boolean shuffled;
    private transient Set<Map.Entry<K, V>> entries;

    /** An entry, and the next one of its chain. */
    static final class Node<K, V> implements Map.Entry<K, V> {
        final int hash;
        final K key;
        V value;
        Node<K, V> next;

        Node(int hash, K key, V value) {
            this.hash = hash;
            this.key = key;
            this.value = value;
        }

        public K getKey() {
            return key;
        }

        public V getValue() {
            return value;
        }

        public V setValue(V value) {
            V old = this.value;
            this.value = value;
            return old;
        }

        public boolean equals(Object o) {
            return o == this || isEntry(o, key, value);
        }

        public int hashCode() {
            return hashOf(key, value);
        }

        public String toString() {
            return key + "=" + value;
        }
    }

    public HashMap() {
    }

    public HashMap(int initialCapacity) {
        if (initialCapacity < 0) {
            throw new IllegalArgumentException("Illegal initial capacity: " + initialCapacity);
        }
        capacity = powerFrom(initialCapacity);
    }

    public HashMap(Map<? extends K, ? extends V> m) {
        putEntries(m, false);
    }

    /** The least power of two that isn't below a number. */
    static int powerFrom(int least) {
        int power = 1;
        while (power < least && power < GREATEST) {
            power <<= 1;
        }
        return power;
    }

    static int spread(Object key) {
        if (key == null) {
            return 0;
        }
        int hash = ObjectMembers.hashCode(key);
        return hash ^ hash >>> 16;
    }

    @SuppressWarnings("unchecked")
    private static <K, V> Node<K, V>[] newChains(int count) {
        return (Node<K, V>[]) new Node[count];
    }

    /** How many chains there are for a length of the machine's table. */
    private static int chainsFor(int capacity) {
        int chains = capacity < CHAINS ? capacity : CHAINS;
        while (capacity >= 16 * chains && capacity > CHAINS) {
            chains *= 4;
        }
        return chains;
    }

    private void begin() {
        if (capacity == 0) {
            capacity = 16;
        }
        threshold = threeQuarters(capacity);
        chains = newChains(chainsFor(capacity));
    }

    private static int threeQuarters(int capacity) {
        return (capacity >> 1) + (capacity >> 2);
    }

    /** What the machine does where its table grows, or is made. */
    private void grow() {
        if (chains == null) {
            begin();
        } else if (capacity == GREATEST) {
            threshold = Integer.MAX_VALUE;
        } else {
            capacity <<= 1;
            threshold = threeQuarters(capacity);
            int count = chainsFor(capacity);
            if (count != chains.length) {
                regroup(count);
            }
        }
    }

    /** Moves the entries into more chains. Each new chain has those of one old one, in their order. */
    private void regroup(int count) {
        Node<K, V>[] old = chains;
        Node<K, V>[] heads = newChains(count);
        Node<K, V>[] tails = newChains(count);
        for (int chain = 0; chain < old.length; chain++) {
            Node<K, V> next;
            for (Node<K, V> node = old[chain]; node != null; node = next) {
                next = node.next;
                node.next = null;
                int at = node.hash & count - 1;
                if (tails[at] == null) {
                    heads[at] = node;
                } else {
                    tails[at].next = node;
                }
                tails[at] = node;
            }
        }
        chains = heads;
    }

    /** What comes where a bucket has more entries than the machine keeps in a list: the table grows, or the bucket would become a tree. */
    private void crowded(int hash, int most) {
        int mask = capacity - 1;
        int count = 0;
        for (Node<K, V> node = chains[hash & chains.length - 1]; node != null; node = node.next) {
            if (((node.hash ^ hash) & mask) == 0) {
                count++;
            }
        }
        if (count > most) {
            if (capacity < 64) {
                grow();
            } else if (orderShows()) {
                treeBin();
            }
        }
    }

    private static native void treeBin();

    /** Whether the order of the table can be seen. */
    boolean orderShows() {
        return true;
    }

    /** An entry was made and comes in. */
    void entered(Node<K, V> node) {
    }

    /** The value of an entry was asked for or set. */
    void used(Node<K, V> node) {
    }

    /** An entry came in. */
    void inserted() {
    }

    /** An entry went. */
    void left(Node<K, V> node) {
    }

    public int size() {
        return size;
    }

    public boolean isEmpty() {
        return size == 0;
    }

    final Node<K, V> find(Object key) {
        return find(spread(key), key);
    }

    private Node<K, V> find(int hash, Object key) {
        Node<K, V>[] table = chains;
        if (table == null) {
            return null;
        }
        for (Node<K, V> node = table[hash & table.length - 1]; node != null; node = node.next) {
            if (node.hash == hash && (node.key == key || key != null && key.equals(node.key))) {
                return node;
            }
        }
        return null;
    }

    public V get(Object key) {
        Node<K, V> node = find(key);
        return node == null ? null : node.value;
    }

    public boolean containsKey(Object key) {
        return find(key) != null;
    }

    public V getOrDefault(Object key, V defaultValue) {
        Node<K, V> node = find(key);
        return node == null ? defaultValue : node.value;
    }

    public V put(K key, V value) {
        return put(key, value, false, true);
    }

    public V putIfAbsent(K key, V value) {
        return put(key, value, true, true);
    }

    private V put(K key, V value, boolean onlyIfAbsent, boolean evicts) {
        int hash = spread(key);
        if (chains == null) {
            begin();
        }
        Node<K, V>[] table = chains;
        int at = hash & table.length - 1;
        Node<K, V> last = null;
        int steps = 0;
        for (Node<K, V> node = table[at]; node != null; node = node.next) {
            if (node.hash == hash && (node.key == key || key != null && key.equals(node.key))) {
                V old = node.value;
                if (!onlyIfAbsent || old == null) {
                    node.value = value;
                }
                used(node);
                return old;
            }
            last = node;
            steps++;
        }
        Node<K, V> made = new Node<K, V>(hash, key, value);
        entered(made);
        if (last == null) {
            table[at] = made;
        } else {
            last.next = made;
        }
        if (steps >= 8) {
            crowded(hash, 8);
        }
        modCount++;
        size++;
        if (size > threshold) {
            grow();
        }
        if (evicts) {
            inserted();
        }
        return null;
    }

    /** Puts an entry before the others of its bucket, as the machine's compute and merge do; the table doesn't grow by it. */
    private void putFirst(int hash, K key, V value) {
        Node<K, V> made = new Node<K, V>(hash, key, value);
        entered(made);
        int at = hash & chains.length - 1;
        made.next = chains[at];
        chains[at] = made;
        if (made.next != null) {
            crowded(hash, 7);
        }
        modCount++;
        size++;
        inserted();
    }

    private void growIfFull() {
        if (chains == null || size > threshold) {
            grow();
        }
    }

    public void putAll(Map<? extends K, ? extends V> m) {
        putEntries(m, true);
    }

    final void putEntries(Map<? extends K, ? extends V> m, boolean evicts) {
        int count = m.size();
        if (count > 0) {
            reserve(count);
            Iterator<? extends Map.Entry<? extends K, ? extends V>> it;
            if (m instanceof ImmutableMap && count > 1 && orderShows()) {
                shuffled = true;
                it = ((ImmutableMap<? extends K, ? extends V>) m).anyOrder();
            } else {
                it = m.entrySet().iterator();
            }
            while (it.hasNext()) {
                Map.Entry<? extends K, ? extends V> entry = it.next();
                put(entry.getKey(), entry.getValue(), false, evicts);
            }
        }
    }

    /** What the machine makes ready for so many entries that come at once. */
    private void reserve(int count) {
        if (chains == null) {
            int wanted = count + count / 3 + 1;
            if (wanted > capacity) {
                capacity = powerFrom(wanted);
            }
        } else {
            while (count > threshold && capacity < GREATEST) {
                grow();
            }
        }
    }

    /** From here on the order in which entries came isn't known. */
    final void shuffled() {
        shuffled = true;
    }

    public V remove(Object key) {
        Node<K, V> node = removeNode(key, false, null);
        return node == null ? null : node.value;
    }

    public boolean remove(Object key, Object value) {
        return removeNode(key, true, value) != null;
    }

    final Node<K, V> removeNode(Object key, boolean withValue, Object value) {
        return removeNode(spread(key), key, withValue, value);
    }

    final Node<K, V> removeNode(int hash, Object key, boolean withValue, Object value) {
        Node<K, V>[] table = chains;
        if (table == null) {
            return null;
        }
        int at = hash & table.length - 1;
        Node<K, V> before = null;
        for (Node<K, V> node = table[at]; node != null; node = node.next) {
            if (node.hash == hash && (node.key == key || key != null && key.equals(node.key))) {
                if (withValue && node.value != value && (value == null || !value.equals(node.value))) {
                    return null;
                }
                if (before == null) {
                    table[at] = node.next;
                } else {
                    before.next = node.next;
                }
                modCount++;
                size--;
                left(node);
                return node;
            }
            before = node;
        }
        return null;
    }

    public void clear() {
        modCount++;
        Node<K, V>[] table = chains;
        if (table != null && size > 0) {
            size = 0;
            for (int chain = 0; chain < table.length; chain++) {
                table[chain] = null;
            }
        }
        shuffled = false;
    }

    public boolean containsValue(Object value) {
        Node<K, V>[] all = ordered();
        for (int i = 0; i < size; i++) {
            V mine = all[i].value;
            if (mine == value || value != null && value.equals(mine)) {
                return true;
            }
        }
        return false;
    }

    public boolean replace(K key, V oldValue, V newValue) {
        Node<K, V> node = find(key);
        if (node == null || !(node.value == oldValue || node.value != null && node.value.equals(oldValue))) {
            return false;
        }
        node.value = newValue;
        used(node);
        return true;
    }

    public V replace(K key, V value) {
        Node<K, V> node = find(key);
        if (node == null) {
            return null;
        }
        V old = node.value;
        node.value = value;
        used(node);
        return old;
    }

    private void same(int expected) {
        if (modCount != expected) {
            throw new ConcurrentModificationException();
        }
    }

    public V computeIfAbsent(K key, Function<? super K, ? extends V> mappingFunction) {
        if (mappingFunction == null) {
            throw new NullPointerException();
        }
        int hash = spread(key);
        growIfFull();
        Node<K, V> node = find(hash, key);
        if (node != null && node.value != null) {
            used(node);
            return node.value;
        }
        int expected = modCount;
        V value = mappingFunction.apply(key);
        same(expected);
        if (value == null) {
            return null;
        }
        if (node != null) {
            node.value = value;
            used(node);
        } else {
            putFirst(hash, key, value);
        }
        return value;
    }

    public V computeIfPresent(K key, BiFunction<? super K, ? super V, ? extends V> remappingFunction) {
        if (remappingFunction == null) {
            throw new NullPointerException();
        }
        Node<K, V> node = find(key);
        if (node == null || node.value == null) {
            return null;
        }
        int expected = modCount;
        V value = remappingFunction.apply(key, node.value);
        same(expected);
        set(node, value);
        return value;
    }

    /** Sets the value of an entry, or removes it where that is null. */
    private void set(Node<K, V> node, V value) {
        if (value != null) {
            node.value = value;
            used(node);
        } else {
            removeNode(node.hash, node.key, false, null);
        }
    }

    public V compute(K key, BiFunction<? super K, ? super V, ? extends V> remappingFunction) {
        if (remappingFunction == null) {
            throw new NullPointerException();
        }
        int hash = spread(key);
        growIfFull();
        Node<K, V> node = find(hash, key);
        int expected = modCount;
        V value = remappingFunction.apply(key, node == null ? null : node.value);
        same(expected);
        if (node != null) {
            set(node, value);
        } else if (value != null) {
            putFirst(hash, key, value);
        }
        return value;
    }

    public V merge(K key, V value, BiFunction<? super V, ? super V, ? extends V> remappingFunction) {
        if (value == null || remappingFunction == null) {
            throw new NullPointerException();
        }
        int hash = spread(key);
        growIfFull();
        Node<K, V> node = find(hash, key);
        if (node == null) {
            putFirst(hash, key, value);
            return value;
        }
        V merged = value;
        if (node.value != null) {
            int expected = modCount;
            merged = remappingFunction.apply(node.value, value);
            same(expected);
        }
        set(node, merged);
        return merged;
    }

    /** The entries in the order in which they are handed out, at the front of an array that may have more room. */
    Node<K, V>[] ordered() {
        Node<K, V>[] all = newChains(ArrayList.room(16, size));
        Node<K, V>[] table = chains;
        if (size > 0) {
            int count = 0;
            int mask = capacity - 1;
            for (int bucket = 0; bucket < capacity; bucket++) {
                for (Node<K, V> node = table[bucket & table.length - 1]; node != null; node = node.next) {
                    if ((node.hash & mask) == bucket) {
                        all[count] = node;
                        count++;
                    }
                }
            }
            if (shuffled) {
                checkOrder(all);
            }
        }
        return all;
    }

    /** Ends the run where the order of two entries depends on which of them came first. */
    private void checkOrder(Node<K, V>[] all) {
        for (int i = 1; i < size; i++) {
            if (((all[i - 1].hash ^ all[i].hash) & capacity - 1) == 0) {
                orderOfImmutableMap();
            }
        }
    }

    private static native void orderOfImmutableMap();

    public void forEach(BiConsumer<? super K, ? super V> action) {
        if (action == null) {
            throw new NullPointerException();
        }
        Node<K, V>[] all = ordered();
        int count = size;
        int expected = modCount;
        for (int i = 0; i < count; i++) {
            action.accept(all[i].key, all[i].value);
            steady(expected);
        }
    }

    public void replaceAll(BiFunction<? super K, ? super V, ? extends V> function) {
        if (function == null) {
            throw new NullPointerException();
        }
        Node<K, V>[] all = ordered();
        int count = size;
        int expected = modCount;
        for (int i = 0; i < count; i++) {
            all[i].value = function.apply(all[i].key, all[i].value);
            steady(expected);
        }
    }

    /** Ends the run where the map was changed while forEach or replaceAll was at work: the machine goes on through its changed table. */
    private void steady(int expected) {
        if (modCount != expected) {
            changedByForEach();
        }
    }

    private static native void changedByForEach();

    /** A map of its own with the same entries; of this class, also where the map is of a class below. */
    public Object clone() {
        return new HashMap<K, V>(this);
    }

    public Set<K> keySet() {
        if (keySet == null) {
            keySet = new Keys<K, V>(this);
        }
        return keySet;
    }

    public Collection<V> values() {
        if (values == null) {
            values = new Values<K, V>(this);
        }
        return values;
    }

    public Set<Map.Entry<K, V>> entrySet() {
        if (entries == null) {
            entries = new Entries<K, V>(this);
        }
        return entries;
    }

    /** An iterator over what it is given of the entries: the order was fixed when it was made. */
    static class Walk<K, V> {
        private final HashMap<K, V> map;
        private final Node<K, V>[] all;
        private final int count;
        private int cursor;
        private Node<K, V> last;
        private int expected;

        Walk(HashMap<K, V> map) {
            this.map = map;
            all = map.ordered();
            count = map.size;
            expected = map.modCount;
        }

        public final boolean hasNext() {
            return cursor < count;
        }

        final Node<K, V> nextNode() {
            if (map.modCount != expected) {
                throw new ConcurrentModificationException();
            }
            if (cursor >= count) {
                throw new NoSuchElementException();
            }
            Node<K, V> node = all[cursor];
            cursor++;
            last = node;
            return node;
        }

        public final void remove() {
            if (last == null) {
                throw new IllegalStateException();
            }
            if (map.modCount != expected) {
                throw new ConcurrentModificationException();
            }
            map.removeNode(last.hash, last.key, false, null);
            last = null;
            expected = map.modCount;
        }
    }

    static final class KeyWalk<K, V> extends Walk<K, V> implements Iterator<K> {
        KeyWalk(HashMap<K, V> map) {
            super(map);
        }

        public K next() {
            return nextNode().key;
        }
    }

    static final class ValueWalk<K, V> extends Walk<K, V> implements Iterator<V> {
        ValueWalk(HashMap<K, V> map) {
            super(map);
        }

        public V next() {
            return nextNode().value;
        }
    }

    static final class EntryWalk<K, V> extends Walk<K, V> implements Iterator<Map.Entry<K, V>> {
        EntryWalk(HashMap<K, V> map) {
            super(map);
        }

        public Map.Entry<K, V> next() {
            return nextNode();
        }
    }

    static final class Keys<K, V> extends AbstractSet<K> {
        private final HashMap<K, V> map;

        Keys(HashMap<K, V> map) {
            this.map = map;
        }

        public int size() {
            return map.size;
        }

        public void clear() {
            map.clear();
        }

        public Iterator<K> iterator() {
            return new KeyWalk<K, V>(map);
        }

        public void forEach(Consumer<? super K> action) {
            if (action == null) {
                throw new NullPointerException();
            }
            Node<K, V>[] all = map.ordered();
            int count = map.size;
            int expected = map.modCount;
            for (int i = 0; i < count; i++) {
                action.accept(all[i].key);
                map.steady(expected);
            }
        }

        public boolean contains(Object o) {
            return map.containsKey(o);
        }

        public boolean remove(Object key) {
            return map.removeNode(key, false, null) != null;
        }
    }

    static final class Values<K, V> extends AbstractCollection<V> {
        private final HashMap<K, V> map;

        Values(HashMap<K, V> map) {
            this.map = map;
        }

        public int size() {
            return map.size;
        }

        public void clear() {
            map.clear();
        }

        public Iterator<V> iterator() {
            return new ValueWalk<K, V>(map);
        }

        public void forEach(Consumer<? super V> action) {
            if (action == null) {
                throw new NullPointerException();
            }
            Node<K, V>[] all = map.ordered();
            int count = map.size;
            int expected = map.modCount;
            for (int i = 0; i < count; i++) {
                action.accept(all[i].value);
                map.steady(expected);
            }
        }

        public boolean contains(Object o) {
            return map.containsValue(o);
        }
    }

    static final class Entries<K, V> extends AbstractSet<Map.Entry<K, V>> {
        private final HashMap<K, V> map;

        Entries(HashMap<K, V> map) {
            this.map = map;
        }

        public int size() {
            return map.size;
        }

        public void clear() {
            map.clear();
        }

        public Iterator<Map.Entry<K, V>> iterator() {
            return new EntryWalk<K, V>(map);
        }

        public void forEach(Consumer<? super Map.Entry<K, V>> action) {
            if (action == null) {
                throw new NullPointerException();
            }
            Node<K, V>[] all = map.ordered();
            int count = map.size;
            int expected = map.modCount;
            for (int i = 0; i < count; i++) {
                action.accept(all[i]);
                map.steady(expected);
            }
        }

        public boolean contains(Object o) {
            if (!(o instanceof Map.Entry)) {
                return false;
            }
            Node<K, V> node = map.find(((Map.Entry<?, ?>) o).getKey());
            return node != null && node.equals(o);
        }

        public boolean remove(Object o) {
            if (!(o instanceof Map.Entry)) {
                return false;
            }
            Map.Entry<?, ?> entry = (Map.Entry<?, ?>) o;
            return map.removeNode(entry.getKey(), true, entry.getValue()) != null;
        }
    }
}
