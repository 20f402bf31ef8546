package java.util;

/** A set over the keys of a HashMap. */
public class HashSet<E> extends AbstractSet<E> implements Set<E>, Cloneable, java.io.Serializable {
    private static final Object PRESENT = "present";

    private final HashMap<E, Object> map;

    public HashSet() {
        map = new HashMap<E, Object>();
    }

    public HashSet(int initialCapacity) {
        map = new HashMap<E, Object>(initialCapacity);
    }

    public HashSet(Collection<? extends E> c) {
        int size = c.size();
        int wanted = size + size / 3 + 1;
        map = new HashMap<E, Object>(wanted < 16 ? 16 : wanted);
        addAll(c);
    }

    /** Over a map that is made for it. */
    HashSet(HashMap<E, Object> map) {
        this.map = map;
    }

    final HashMap<E, Object> map() {
        return map;
    }

    public Iterator<E> iterator() {
        return new HashMap.KeyWalk<E, Object>(map);
    }

    public int size() {
        return map.size;
    }

    public boolean isEmpty() {
        return map.size == 0;
    }

    public boolean contains(Object o) {
        return map.find(o) != null;
    }

    public boolean add(E e) {
        return map.put(e, PRESENT) == null;
    }

    public boolean addAll(Collection<? extends E> c) {
        boolean changed = false;
        Iterator<? extends E> it;
        if (map.orderShows() && c instanceof ImmutableSet && c.size() > 1) {
            map.shuffled();
            it = ImmutableSet.anyOrder(c);
        } else {
            it = c.iterator();
        }
        while (it.hasNext()) {
            if (add(it.next())) {
                changed = true;
            }
        }
        return changed;
    }

    public boolean remove(Object o) {
        return map.remove(o) == PRESENT;
    }

    public void clear() {
        map.clear();
    }

    /** A set of its own with the same elements; of this class, also where the set is of a class below. */
    @SuppressWarnings("unchecked")
    public Object clone() {
        return new HashSet<E>((HashMap<E, Object>) map.clone());
    }
}
