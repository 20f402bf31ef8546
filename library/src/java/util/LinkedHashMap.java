package java.util;

/**
 * A HashMap that hands its keys out in the order of their insertion, or of their last use. The order stands in an array, whose gaps are closed by
 * a copy.
 */
public class LinkedHashMap<K, V> extends HashMap<K, V> implements Map<K, V> {
    private Object[] order = new Object[16];
    private boolean byAccess;

    public LinkedHashMap() {
    }

    public LinkedHashMap(int initialCapacity) {
        super(initialCapacity);
    }

    /** Of a load factor of 0.75: what stands for the constructor with a load factor, which the machine can't call. */
    public LinkedHashMap(int initialCapacity, boolean accessOrder) {
        super(initialCapacity);
        byAccess = accessOrder;
    }

    public LinkedHashMap(Map<? extends K, ? extends V> m) {
        putEntries(m, false);
    }

    boolean orderShows() {
        return false;
    }

    void entered(Node<K, V> node) {
        if (size == order.length) {
            Object[] more = new Object[ArrayList.room(order.length, size + 1)];
            System.arraycopy(order, 0, more, 0, size);
            order = more;
        }
        order[size] = node;
    }

    void used(Node<K, V> node) {
        if (byAccess && order[size - 1] != node) {
            int at = placeOf(node);
            System.arraycopy(order, at + 1, order, at, size - at - 1);
            order[size - 1] = node;
            modCount++;
        }
    }

    @SuppressWarnings("unchecked")
    void inserted() {
        if (size > 0) {
            Node<K, V> eldest = (Node<K, V>) order[0];
            if (removeEldestEntry(eldest)) {
                removeNode(eldest.hash, eldest.key, false, null);
            }
        }
    }

    void left(Node<K, V> node) {
        int at = placeOf(node);
        System.arraycopy(order, at + 1, order, at, size - at);
    }

    private int placeOf(Object node) {
        Object[] all = order;
        int at = 0;
        while (all[at] != node) {
            at++;
        }
        return at;
    }

    @SuppressWarnings("unchecked")
    Node<K, V>[] ordered() {
        Node<K, V>[] all = (Node<K, V>[]) new Node[order.length];
        System.arraycopy(order, 0, all, 0, size);
        return all;
    }

    protected boolean removeEldestEntry(Map.Entry<K, V> eldest) {
        return false;
    }

    public V get(Object key) {
        Node<K, V> node = find(key);
        if (node == null) {
            return null;
        }
        used(node);
        return node.value;
    }

    public V getOrDefault(Object key, V defaultValue) {
        Node<K, V> node = find(key);
        if (node == null) {
            return defaultValue;
        }
        used(node);
        return node.value;
    }

    public Object clone() {
        LinkedHashMap<K, V> copy = new LinkedHashMap<K, V>(this);
        copy.byAccess = byAccess;
        return copy;
    }
}
