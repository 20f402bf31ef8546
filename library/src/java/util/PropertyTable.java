package java.util;

import java.util.function.BiFunction;
import java.util.function.Function;
import varexj.lang.ObjectMembers;

/**
 * The table of Properties, which on a Java machine is a ConcurrentHashMap: its order is that of its buckets, and within one that of insertion, but for
 * what a longer table turned round.
 */
final class PropertyTable extends AbstractMap<Object, Object> {
    private Node[] table;
    /** The length of the first table, and afterwards the count of entries from which the table grows. */
    private int limit;
    private int size;
    private int changes;
    /** Whether a function of compute is at work. On a Java machine it depends on the buckets whether it may change the table: here that ends the run. */
    private boolean busy;

    /** An entry, and the next one of its bucket. */
    private static final class Node {
        private final int hash;
        private final Object key;
        private Object value;
        private Node next;

        Node(int hash, Object key, Object value, Node next) {
            this.hash = hash;
            this.key = key;
            this.value = value;
            this.next = next;
        }
    }

    PropertyTable(int initialCapacity) {
        if (initialCapacity < 0) {
            throw new IllegalArgumentException();
        }
        int least = initialCapacity < 1 ? 1 : initialCapacity;
        limit = HashMap.powerFrom(1 + least + least / 3);
    }

    PropertyTable(PropertyTable other) {
        limit = 16;
        putAll(other);
    }

    private static void wanted(Object o) {
        if (o == null) {
            throw new NullPointerException();
        }
    }

    private static int spread(Object key) {
        wanted(key);
        int hash = ObjectMembers.hashCode(key);
        return (hash ^ hash >>> 16) & Integer.MAX_VALUE;
    }

    private void begin(int length) {
        table = new Node[length];
        limit = length - (length >> 2);
    }

    private void grow() {
        Node[] old = table;
        begin(2 * old.length);
        for (int i = 0; i < old.length; i++) {
            if (old[i] != null) {
                split(i, old.length, old[i]);
            }
        }
    }

    /** Splits a bucket into two: its last run that goes to one of them stays as it is, and each entry before it comes before what is there. */
    private void split(int at, int length, Node first) {
        Node run = first;
        for (Node node = first.next; node != null; node = node.next) {
            if ((node.hash & length) != (run.hash & length)) {
                run = node;
            }
        }
        Node low = (run.hash & length) == 0 ? run : null;
        Node high = low == null ? run : null;
        for (Node node = first; node != run; node = node.next) {
            if ((node.hash & length) == 0) {
                low = new Node(node.hash, node.key, node.value, low);
            } else {
                high = new Node(node.hash, node.key, node.value, high);
            }
        }
        table[at] = low;
        table[at + length] = high;
    }

    /** What a bucket of eight entries comes to is up to each later call on a Java machine: it may grow the table without adding anything. */
    private static native void treeBin();

    private static native void changedWhileIterating();

    private void wantIdle() {
        if (busy) {
            changedByFunction();
        }
    }

    private static native void changedByFunction();

    private Object applied(BiFunction<? super Object, ? super Object, ?> function, Object one, Object other) {
        wantIdle();
        busy = true;
        try {
            return function.apply(one, other);
        } finally {
            busy = false;
        }
    }

    /** Sets the value of a key, or removes it where that is null. */
    private Object set(Object key, Object value) {
        if (value == null) {
            remove(key);
        } else {
            put(key, value);
        }
        return value;
    }

    public Object computeIfAbsent(Object key, Function<? super Object, ?> mappingFunction) {
        wanted(mappingFunction);
        Node found = find(spread(key), key);
        if (found != null) {
            return found.value;
        }
        wantIdle();
        Object value;
        busy = true;
        try {
            value = mappingFunction.apply(key);
        } finally {
            busy = false;
        }
        return value == null ? null : set(key, value);
    }

    public Object computeIfPresent(Object key, BiFunction<? super Object, ? super Object, ?> remappingFunction) {
        wanted(remappingFunction);
        Node found = find(spread(key), key);
        return found == null ? null : set(key, applied(remappingFunction, key, found.value));
    }

    public Object compute(Object key, BiFunction<? super Object, ? super Object, ?> remappingFunction) {
        wanted(remappingFunction);
        Node found = find(spread(key), key);
        return set(key, applied(remappingFunction, key, found == null ? null : found.value));
    }

    public Object merge(Object key, Object value, BiFunction<? super Object, ? super Object, ?> remappingFunction) {
        wanted(value);
        wanted(remappingFunction);
        Node found = find(spread(key), key);
        return set(key, found == null ? value : applied(remappingFunction, found.value, value));
    }

    private Node find(int hash, Object key) {
        if (table != null) {
            for (Node node = table[hash & table.length - 1]; node != null; node = node.next) {
                if (node.hash == hash && (node.key == key || key.equals(node.key))) {
                    return node;
                }
            }
        }
        return null;
    }

    public int size() {
        return size;
    }

    public boolean containsKey(Object key) {
        return find(spread(key), key) != null;
    }

    public boolean containsValue(Object value) {
        wanted(value);
        return super.containsValue(value);
    }

    public Object get(Object key) {
        Node node = find(spread(key), key);
        return node == null ? null : node.value;
    }

    public Object put(Object key, Object value) {
        wantIdle();
        wanted(value);
        int hash = spread(key);
        Node found = find(hash, key);
        if (found != null) {
            Object old = found.value;
            found.value = value;
            return old;
        }
        if (table == null) {
            begin(limit);
        }
        append(hash, key, value);
        changes++;
        size++;
        while (size >= limit) {
            grow();
        }
        return null;
    }

    private void append(int hash, Object key, Object value) {
        int at = hash & table.length - 1;
        Node made = new Node(hash, key, value, null);
        if (table[at] == null) {
            table[at] = made;
            return;
        }
        int count = 1;
        Node last = table[at];
        while (last.next != null) {
            last = last.next;
            count++;
        }
        last.next = made;
        if (count >= 7) {
            treeBin();
        }
    }

    public void putAll(Map<?, ?> m) {
        reserve(m.size());
        super.putAll(m);
    }

    private void reserve(int count) {
        int length = HashMap.powerFrom(count + (count >>> 1) + 1);
        if (table == null) {
            begin(limit > length ? limit : length);
        }
        while (length > limit) {
            grow();
        }
    }

    public Object remove(Object key) {
        wantIdle();
        int hash = spread(key);
        Node found = find(hash, key);
        if (found == null) {
            return null;
        }
        int at = hash & table.length - 1;
        if (table[at] == found) {
            table[at] = found.next;
        } else {
            Node before = table[at];
            while (before.next != found) {
                before = before.next;
            }
            before.next = found.next;
        }
        changes++;
        size--;
        return found.value;
    }

    public void clear() {
        wantIdle();
        if (size > 0) {
            changes++;
        }
        size = 0;
        for (int i = 0; table != null && i < table.length; i++) {
            table[i] = null;
        }
    }

    /** The entries in the order in which they are handed out. */
    private Node[] ordered() {
        Node[] all = new Node[size];
        int count = 0;
        for (int i = 0; count < size; i++) {
            for (Node node = table[i]; node != null; node = node.next) {
                all[count++] = node;
            }
        }
        return all;
    }

    public Set<Map.Entry<Object, Object>> entrySet() {
        return new Entries(this);
    }

    public Set<Object> keySet() {
        return new Keys(this);
    }

    private static final class Keys extends AbstractSet<Object> {
        private final PropertyTable map;

        Keys(PropertyTable map) {
            this.map = map;
        }

        public int size() {
            return map.size;
        }

        public Iterator<Object> iterator() {
            final Iterator<Map.Entry<Object, Object>> it = map.entrySet().iterator();
            return new Iterator<Object>() {
                public boolean hasNext() {
                    return it.hasNext();
                }

                public Object next() {
                    return it.next().getKey();
                }

                public void remove() {
                    it.remove();
                }
            };
        }

        public boolean contains(Object o) {
            return map.containsKey(o);
        }

        public boolean remove(Object o) {
            return map.remove(o) != null;
        }

        public boolean containsAll(Collection<?> c) {
            for (Iterator<?> it = c.iterator(); it.hasNext();) {
                Object element = it.next();
                if (element == null || !contains(element)) {
                    return false;
                }
            }
            return true;
        }

        public boolean removeAll(Collection<?> c) {
            wanted(c);
            if (map.table == null || c instanceof Set && c.size() > map.table.length) {
                return super.removeAll(c);
            }
            boolean changed = false;
            for (Iterator<?> it = c.iterator(); it.hasNext();) {
                if (remove(it.next())) {
                    changed = true;
                }
            }
            return changed;
        }

        public void clear() {
            map.clear();
        }
    }

    private static final class Entries extends AbstractSet<Map.Entry<Object, Object>> {
        private final PropertyTable map;

        Entries(PropertyTable map) {
            this.map = map;
        }

        public int size() {
            return map.size;
        }

        public Iterator<Map.Entry<Object, Object>> iterator() {
            return new Walk(map);
        }

        public boolean contains(Object o) {
            if (!(o instanceof Map.Entry)) {
                return false;
            }
            Map.Entry<?, ?> entry = (Map.Entry<?, ?>) o;
            if (entry.getKey() == null || entry.getValue() == null) {
                return false;
            }
            Object value = map.get(entry.getKey());
            return value != null && value.equals(entry.getValue());
        }

        public boolean remove(Object o) {
            if (!contains(o)) {
                return false;
            }
            map.remove(((Map.Entry<?, ?>) o).getKey());
            return true;
        }

        public void clear() {
            map.clear();
        }
    }

    /** An iterator; where the table is changed beside it, what it gives next is the Java machine's choice. */
    private static final class Walk implements Iterator<Map.Entry<Object, Object>> {
        private final PropertyTable map;
        private final Node[] all;
        private int cursor;
        private Node last;
        private int expected;

        Walk(PropertyTable map) {
            this.map = map;
            all = map.ordered();
            expected = map.changes;
        }

        private void steady() {
            if (map.changes != expected) {
                changedWhileIterating();
            }
        }

        public boolean hasNext() {
            return cursor < all.length;
        }

        public Map.Entry<Object, Object> next() {
            steady();
            if (cursor >= all.length) {
                throw new NoSuchElementException();
            }
            last = all[cursor];
            cursor++;
            return new Pair(map, last.key, last.value);
        }

        public void remove() {
            steady();
            if (last == null) {
                throw new IllegalStateException();
            }
            map.remove(last.key);
            last = null;
            expected = map.changes;
        }
    }

    /** An entry as it was when it was handed out. */
    private static final class Pair implements Map.Entry<Object, Object> {
        private final PropertyTable map;
        private final Object key;
        private Object value;

        Pair(PropertyTable map, Object key, Object value) {
            this.map = map;
            this.key = key;
            this.value = value;
        }

        public Object getKey() {
            return key;
        }

        public Object getValue() {
            return value;
        }

        public Object setValue(Object value) {
            wanted(value);
            Object old = this.value;
            this.value = value;
            map.put(key, value);
            return old;
        }

        public boolean equals(Object o) {
            return isEntry(o, key, value);
        }

        public int hashCode() {
            return hashOf(key, value);
        }

        public String toString() {
            return key + "=" + value;
        }
    }
}
