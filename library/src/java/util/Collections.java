package java.util;

/** What is done with collections, and views of them. The checked views are left out. */
public class Collections {
    @SuppressWarnings("rawtypes")
    public static final List EMPTY_LIST = Constants.list();
    @SuppressWarnings("rawtypes")
    public static final Set EMPTY_SET = Constants.set();
    @SuppressWarnings("rawtypes")
    public static final Map EMPTY_MAP = Constants.map();

    private Collections() {
    }

    public static <T extends Comparable<? super T>> void sort(List<T> list) {
        list.sort(null);
    }

    public static <T> void sort(List<T> list, Comparator<? super T> c) {
        list.sort(c);
    }

    @SuppressWarnings("unchecked")
    public static <T> int binarySearch(List<? extends Comparable<? super T>> list, T key) {
        return search((List<Object>) (List<?>) list, key, Comparators.NATURAL);
    }

    @SuppressWarnings("unchecked")
    public static <T> int binarySearch(List<? extends T> list, T key, Comparator<? super T> c) {
        return search((List<Object>) (List<?>) list, key, c == null ? Comparators.NATURAL : (Comparator<Object>) c);
    }

    private static int search(List<Object> list, Object key, Comparator<Object> order) {
        int low = 0;
        int high = list.size() - 1;
        while (low <= high) {
            int middle = low + high >>> 1;
            int found = order.compare(list.get(middle), key);
            if (found < 0) {
                low = middle + 1;
            } else if (found > 0) {
                high = middle - 1;
            } else {
                return middle;
            }
        }
        return -(low + 1);
    }

    @SuppressWarnings("unchecked")
    public static void reverse(List<?> list) {
        int size = list.size();
        for (int i = 0, j = size - 1; i < j; i++, j--) {
            swap(list, i, j);
        }
    }

    /** By an order that the Java machine chooses anew in each run: ends this one. */
    public static native void shuffle(List<?> list);

    public static void shuffle(List<?> list, Random rnd) {
        for (int i = list.size(); i > 1; i--) {
            swap(list, i - 1, rnd.nextInt(i));
        }
    }

    @SuppressWarnings("unchecked")
    public static void swap(List<?> list, int i, int j) {
        List<Object> all = (List<Object>) list;
        all.set(i, all.set(j, all.get(i)));
    }

    public static <T> void fill(List<? super T> list, T obj) {
        int size = list.size();
        for (int i = 0; i < size; i++) {
            list.set(i, obj);
        }
    }

    public static <T> void copy(List<? super T> dest, List<? extends T> src) {
        int size = src.size();
        if (size > dest.size()) {
            throw new IndexOutOfBoundsException("Source does not fit in dest");
        }
        for (int i = 0; i < size; i++) {
            dest.set(i, src.get(i));
        }
    }

    public static <T extends Object & Comparable<? super T>> T min(Collection<? extends T> coll) {
        Iterator<? extends T> it = coll.iterator();
        T best = it.next();
        while (it.hasNext()) {
            T next = it.next();
            if (next.compareTo(best) < 0) {
                best = next;
            }
        }
        return best;
    }

    @SuppressWarnings("unchecked")
    public static <T> T min(Collection<? extends T> coll, Comparator<? super T> comp) {
        Comparator<Object> order = comp == null ? Comparators.NATURAL : (Comparator<Object>) comp;
        Iterator<? extends T> it = coll.iterator();
        T best = it.next();
        while (it.hasNext()) {
            T next = it.next();
            if (order.compare(next, best) < 0) {
                best = next;
            }
        }
        return best;
    }

    public static <T extends Object & Comparable<? super T>> T max(Collection<? extends T> coll) {
        Iterator<? extends T> it = coll.iterator();
        T best = it.next();
        while (it.hasNext()) {
            T next = it.next();
            if (next.compareTo(best) > 0) {
                best = next;
            }
        }
        return best;
    }

    @SuppressWarnings("unchecked")
    public static <T> T max(Collection<? extends T> coll, Comparator<? super T> comp) {
        Comparator<Object> order = comp == null ? Comparators.NATURAL : (Comparator<Object>) comp;
        Iterator<? extends T> it = coll.iterator();
        T best = it.next();
        while (it.hasNext()) {
            T next = it.next();
            if (order.compare(next, best) > 0) {
                best = next;
            }
        }
        return best;
    }

    @SuppressWarnings("unchecked")
    public static void rotate(List<?> list, int distance) {
        List<Object> all = (List<Object>) list;
        int size = all.size();
        if (size == 0) {
            return;
        }
        int by = distance % size;
        if (by < 0) {
            by += size;
        }
        if (by == 0) {
            return;
        }
        Object[] old = all.toArray();
        for (int i = 0; i < size; i++) {
            all.set((i + by) % size, old[i]);
        }
    }

    public static <T> boolean replaceAll(List<T> list, T oldVal, T newVal) {
        boolean changed = false;
        for (ListIterator<T> it = list.listIterator(); it.hasNext();) {
            T element = it.next();
            if (oldVal == null ? element == null : oldVal.equals(element)) {
                it.set(newVal);
                changed = true;
            }
        }
        return changed;
    }

    public static int indexOfSubList(List<?> source, List<?> target) {
        int last = source.size() - target.size();
        for (int i = 0; i <= last; i++) {
            if (standsAt(source, i, target)) {
                return i;
            }
        }
        return -1;
    }

    public static int lastIndexOfSubList(List<?> source, List<?> target) {
        for (int i = source.size() - target.size(); i >= 0; i--) {
            if (standsAt(source, i, target)) {
                return i;
            }
        }
        return -1;
    }

    private static boolean standsAt(List<?> source, int at, List<?> target) {
        int size = target.size();
        for (int i = 0; i < size; i++) {
            Object wanted = target.get(i);
            Object found = source.get(at + i);
            if (!(wanted == null ? found == null : wanted.equals(found))) {
                return false;
            }
        }
        return true;
    }

    public static int frequency(Collection<?> c, Object o) {
        int count = 0;
        for (Iterator<?> it = c.iterator(); it.hasNext();) {
            Object element = it.next();
            if (o == null ? element == null : o.equals(element)) {
                count++;
            }
        }
        return count;
    }

    /** Whether no element is in both. Which of them is walked is the Java machine's choice: the first, where it isn't a set or the other isn't longer. */
    public static boolean disjoint(Collection<?> c1, Collection<?> c2) {
        Collection<?> contains = c2;
        Collection<?> walked = c1;
        if (c1 instanceof Set) {
            walked = c2;
            contains = c1;
        } else if (!(c2 instanceof Set)) {
            int size1 = c1.size();
            int size2 = c2.size();
            if (size1 == 0 || size2 == 0) {
                return true;
            }
            if (size1 > size2) {
                walked = c2;
                contains = c1;
            }
        }
        for (Iterator<?> it = ImmutableSet.anyOrder(walked); it.hasNext();) {
            if (contains.contains(it.next())) {
                return false;
            }
        }
        return true;
    }

    @SafeVarargs
    public static <T> boolean addAll(Collection<? super T> c, T... elements) {
        boolean changed = false;
        for (int i = 0; i < elements.length; i++) {
            if (c.add(elements[i])) {
                changed = true;
            }
        }
        return changed;
    }

    @SuppressWarnings("unchecked")
    public static <T> Comparator<T> reverseOrder() {
        return (Comparator<T>) Comparators.REVERSE;
    }

    @SuppressWarnings("unchecked")
    public static <T> Comparator<T> reverseOrder(Comparator<T> cmp) {
        return Comparators.reversed(cmp);
    }

    public static <T> Enumeration<T> enumeration(Collection<T> c) {
        final Iterator<T> it = c.iterator();
        return new Enumeration<T>() {
            public boolean hasMoreElements() {
                return it.hasNext();
            }

            public T nextElement() {
                return it.next();
            }
        };
    }

    public static <T> ArrayList<T> list(Enumeration<T> e) {
        ArrayList<T> list = new ArrayList<T>();
        while (e.hasMoreElements()) {
            list.add(e.nextElement());
        }
        return list;
    }

    public static <T> List<T> emptyList() {
        return Constants.list();
    }

    public static <T> Set<T> emptySet() {
        return Constants.set();
    }

    public static <K, V> Map<K, V> emptyMap() {
        return Constants.map();
    }

    public static <T> Iterator<T> emptyIterator() {
        return Collections.<T>emptyList().iterator();
    }

    public static <T> ListIterator<T> emptyListIterator() {
        return Collections.<T>emptyList().listIterator();
    }

    public static <T> Enumeration<T> emptyEnumeration() {
        return enumeration(Collections.<T>emptyList());
    }

    public static <E> SortedSet<E> emptySortedSet() {
        return unmodifiableNavigableSet(new TreeSet<E>());
    }

    public static <E> NavigableSet<E> emptyNavigableSet() {
        return unmodifiableNavigableSet(new TreeSet<E>());
    }

    public static <K, V> SortedMap<K, V> emptySortedMap() {
        return unmodifiableNavigableMap(new TreeMap<K, V>());
    }

    public static <K, V> NavigableMap<K, V> emptyNavigableMap() {
        return unmodifiableNavigableMap(new TreeMap<K, V>());
    }

    public static <T> List<T> singletonList(T o) {
        return new Constants.OneList<T>(o);
    }

    public static <T> Set<T> singleton(T o) {
        return new Constants.OneSet<T>(o);
    }

    public static <K, V> Map<K, V> singletonMap(K key, V value) {
        return new Constants.OneMap<K, V>(key, value);
    }

    public static <T> List<T> nCopies(int n, T o) {
        if (n < 0) {
            throw new IllegalArgumentException("List length = " + n);
        }
        return new Constants.Copies<T>(n, o);
    }

    public static <E> Set<E> newSetFromMap(Map<E, Boolean> map) {
        return new SetOfMap<E>(map);
    }

    public static <T> Queue<T> asLifoQueue(Deque<T> deque) {
        return new LastFirst<T>(deque);
    }

    public static <T> Collection<T> unmodifiableCollection(Collection<? extends T> c) {
        return new Unmodifiable.OfCollection<T>(c);
    }

    public static <T> Set<T> unmodifiableSet(Set<? extends T> c) {
        return new Unmodifiable.OfSet<T>(c);
    }

    public static <T> SortedSet<T> unmodifiableSortedSet(SortedSet<T> c) {
        return new Unmodifiable.OfSortedSet<T>(c);
    }

    public static <T> NavigableSet<T> unmodifiableNavigableSet(NavigableSet<T> c) {
        return new Unmodifiable.OfNavigableSet<T>(c);
    }

    public static <T> List<T> unmodifiableList(List<? extends T> c) {
        return c instanceof RandomAccess ? new Unmodifiable.OfRandomAccess<T>(c) : new Unmodifiable.OfList<T>(c);
    }

    public static <K, V> Map<K, V> unmodifiableMap(Map<? extends K, ? extends V> c) {
        return new Unmodifiable.OfMap<K, V>(c);
    }

    public static <K, V> SortedMap<K, V> unmodifiableSortedMap(SortedMap<K, ? extends V> c) {
        return new Unmodifiable.OfSortedMap<K, V>(c);
    }

    public static <K, V> NavigableMap<K, V> unmodifiableNavigableMap(NavigableMap<K, ? extends V> c) {
        return new Unmodifiable.OfNavigableMap<K, V>(c);
    }

    /** The same collection: there is one thread. */
    public static <T> Collection<T> synchronizedCollection(Collection<T> c) {
        if (c == null) {
            throw new NullPointerException();
        }
        return c;
    }

    /** The same collection: there is one thread. */
    public static <T> Set<T> synchronizedSet(Set<T> c) {
        if (c == null) {
            throw new NullPointerException();
        }
        return c;
    }

    /** The same collection: there is one thread. */
    public static <T> SortedSet<T> synchronizedSortedSet(SortedSet<T> c) {
        if (c == null) {
            throw new NullPointerException();
        }
        return c;
    }

    /** The same collection: there is one thread. */
    public static <T> NavigableSet<T> synchronizedNavigableSet(NavigableSet<T> c) {
        if (c == null) {
            throw new NullPointerException();
        }
        return c;
    }

    /** The same collection: there is one thread. */
    public static <T> List<T> synchronizedList(List<T> c) {
        if (c == null) {
            throw new NullPointerException();
        }
        return c;
    }

    /** The same collection: there is one thread. */
    public static <K, V> Map<K, V> synchronizedMap(Map<K, V> c) {
        if (c == null) {
            throw new NullPointerException();
        }
        return c;
    }

    /** The same collection: there is one thread. */
    public static <K, V> SortedMap<K, V> synchronizedSortedMap(SortedMap<K, V> c) {
        if (c == null) {
            throw new NullPointerException();
        }
        return c;
    }

    /** The same collection: there is one thread. */
    public static <K, V> NavigableMap<K, V> synchronizedNavigableMap(NavigableMap<K, V> c) {
        if (c == null) {
            throw new NullPointerException();
        }
        return c;
    }
}
