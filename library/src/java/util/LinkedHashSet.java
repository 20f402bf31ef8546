package java.util;

/** A set in the order of insertion. */
public class LinkedHashSet<E> extends HashSet<E> implements Set<E>, Cloneable, java.io.Serializable {
    public LinkedHashSet() {
        super(new LinkedHashMap<E, Object>());
    }

    public LinkedHashSet(int initialCapacity) {
        super(new LinkedHashMap<E, Object>(initialCapacity));
    }

    public LinkedHashSet(Collection<? extends E> c) {
        super(new LinkedHashMap<E, Object>(2 * c.size() > 11 ? 2 * c.size() : 11));
        addAll(c);
    }

    private LinkedHashSet(HashMap<E, Object> map) {
        super(map);
    }

    @SuppressWarnings("unchecked")
    public Object clone() {
        return new LinkedHashSet<E>((HashMap<E, Object>) map().clone());
    }
}
