package java.util;

import java.util.function.BiConsumer;
import java.util.function.BiFunction;
import java.util.function.Consumer;
import java.util.function.Function;
import java.util.function.Predicate;
import java.util.function.UnaryOperator;

/** The views of Collections through which nothing can be changed. */
final class Unmodifiable {
    private Unmodifiable() {
    }

    static class OfCollection<E> implements Collection<E>, java.io.Serializable {
        final Collection<? extends E> c;

        OfCollection(Collection<? extends E> c) {
            if (c == null) {
                throw new NullPointerException();
            }
            this.c = c;
        }

        public int size() {
            return c.size();
        }

        public boolean isEmpty() {
            return c.isEmpty();
        }

        public boolean contains(Object o) {
            return c.contains(o);
        }

        public boolean containsAll(Collection<?> others) {
            return c.containsAll(others);
        }

        public Object[] toArray() {
            return c.toArray();
        }

        public <T> T[] toArray(T[] a) {
            return c.toArray(a);
        }

        public String toString() {
            return c.toString();
        }

        public Iterator<E> iterator() {
            final Iterator<? extends E> it = c.iterator();
            return new Iterator<E>() {
                public boolean hasNext() {
                    return it.hasNext();
                }

                public E next() {
                    return it.next();
                }

                public void remove() {
                    throw new UnsupportedOperationException();
                }
            };
        }

        @SuppressWarnings("unchecked")
        public void forEach(Consumer<? super E> action) {
            ((Collection<E>) c).forEach(action);
        }

        public boolean add(E e) {
            throw new UnsupportedOperationException();
        }

        public boolean remove(Object o) {
            throw new UnsupportedOperationException();
        }

        public boolean addAll(Collection<? extends E> others) {
            throw new UnsupportedOperationException();
        }

        public boolean removeAll(Collection<?> others) {
            throw new UnsupportedOperationException();
        }

        public boolean retainAll(Collection<?> others) {
            throw new UnsupportedOperationException();
        }

        public boolean removeIf(Predicate<? super E> filter) {
            throw new UnsupportedOperationException();
        }

        public void clear() {
            throw new UnsupportedOperationException();
        }
    }

    static class OfSet<E> extends OfCollection<E> implements Set<E> {
        OfSet(Set<? extends E> c) {
            super(c);
        }

        public boolean equals(Object o) {
            return o == this || c.equals(o);
        }

        public int hashCode() {
            return varexj.lang.ObjectMembers.hashCode(c);
        }
    }

    static class OfSortedSet<E> extends OfSet<E> implements SortedSet<E> {
        private final SortedSet<E> sorted;

        OfSortedSet(SortedSet<E> c) {
            super(c);
            sorted = c;
        }

        public Comparator<? super E> comparator() {
            return sorted.comparator();
        }

        public E first() {
            return sorted.first();
        }

        public E last() {
            return sorted.last();
        }

        public SortedSet<E> subSet(E from, E to) {
            return new OfSortedSet<E>(sorted.subSet(from, to));
        }

        public SortedSet<E> headSet(E to) {
            return new OfSortedSet<E>(sorted.headSet(to));
        }

        public SortedSet<E> tailSet(E from) {
            return new OfSortedSet<E>(sorted.tailSet(from));
        }
    }

    static final class OfNavigableSet<E> extends OfSortedSet<E> implements NavigableSet<E> {
        private final NavigableSet<E> sorted;

        OfNavigableSet(NavigableSet<E> c) {
            super(c);
            sorted = c;
        }

        public E lower(E e) {
            return sorted.lower(e);
        }

        public E floor(E e) {
            return sorted.floor(e);
        }

        public E ceiling(E e) {
            return sorted.ceiling(e);
        }

        public E higher(E e) {
            return sorted.higher(e);
        }

        public E pollFirst() {
            throw new UnsupportedOperationException();
        }

        public E pollLast() {
            throw new UnsupportedOperationException();
        }

        public NavigableSet<E> descendingSet() {
            return new OfNavigableSet<E>(sorted.descendingSet());
        }

        public Iterator<E> descendingIterator() {
            return descendingSet().iterator();
        }

        public NavigableSet<E> subSet(E from, boolean fromInclusive, E to, boolean toInclusive) {
            return new OfNavigableSet<E>(sorted.subSet(from, fromInclusive, to, toInclusive));
        }

        public NavigableSet<E> headSet(E to, boolean inclusive) {
            return new OfNavigableSet<E>(sorted.headSet(to, inclusive));
        }

        public NavigableSet<E> tailSet(E from, boolean inclusive) {
            return new OfNavigableSet<E>(sorted.tailSet(from, inclusive));
        }
    }

    static class OfList<E> extends OfCollection<E> implements List<E> {
        private final List<? extends E> list;

        OfList(List<? extends E> list) {
            super(list);
            this.list = list;
        }

        public boolean equals(Object o) {
            return o == this || c.equals(o);
        }

        public int hashCode() {
            return varexj.lang.ObjectMembers.hashCode(c);
        }

        public E get(int index) {
            return list.get(index);
        }

        public int indexOf(Object o) {
            return list.indexOf(o);
        }

        public int lastIndexOf(Object o) {
            return list.lastIndexOf(o);
        }

        public E set(int index, E e) {
            throw new UnsupportedOperationException();
        }

        public void add(int index, E e) {
            throw new UnsupportedOperationException();
        }

        public E remove(int index) {
            throw new UnsupportedOperationException();
        }

        public boolean addAll(int index, Collection<? extends E> others) {
            throw new UnsupportedOperationException();
        }

        public void replaceAll(UnaryOperator<E> operator) {
            throw new UnsupportedOperationException();
        }

        public void sort(Comparator<? super E> order) {
            throw new UnsupportedOperationException();
        }

        public ListIterator<E> listIterator() {
            return listIterator(0);
        }

        public ListIterator<E> listIterator(int index) {
            final ListIterator<? extends E> it = list.listIterator(index);
            return new ListIterator<E>() {
                public boolean hasNext() {
                    return it.hasNext();
                }

                public E next() {
                    return it.next();
                }

                public boolean hasPrevious() {
                    return it.hasPrevious();
                }

                public E previous() {
                    return it.previous();
                }

                public int nextIndex() {
                    return it.nextIndex();
                }

                public int previousIndex() {
                    return it.previousIndex();
                }

                public void remove() {
                    throw new UnsupportedOperationException();
                }

                public void set(E e) {
                    throw new UnsupportedOperationException();
                }

                public void add(E e) {
                    throw new UnsupportedOperationException();
                }
            };
        }

        public List<E> subList(int from, int to) {
            return new OfList<E>(list.subList(from, to));
        }
    }

    static final class OfRandomAccess<E> extends OfList<E> implements RandomAccess {
        OfRandomAccess(List<? extends E> list) {
            super(list);
        }

        @SuppressWarnings("unchecked")
        public List<E> subList(int from, int to) {
            return new OfRandomAccess<E>(((List<E>) c).subList(from, to));
        }
    }

    static class OfMap<K, V> implements Map<K, V>, java.io.Serializable {
        final Map<? extends K, ? extends V> map;

        OfMap(Map<? extends K, ? extends V> map) {
            if (map == null) {
                throw new NullPointerException();
            }
            this.map = map;
        }

        public int size() {
            return map.size();
        }

        public boolean isEmpty() {
            return map.isEmpty();
        }

        public boolean containsKey(Object key) {
            return map.containsKey(key);
        }

        public boolean containsValue(Object value) {
            return map.containsValue(value);
        }

        public V get(Object key) {
            return map.get(key);
        }

        public String toString() {
            return map.toString();
        }

        public boolean equals(Object o) {
            return o == this || map.equals(o);
        }

        public int hashCode() {
            return varexj.lang.ObjectMembers.hashCode(map);
        }

        @SuppressWarnings("unchecked")
        public V getOrDefault(Object key, V defaultValue) {
            return ((Map<K, V>) map).getOrDefault(key, defaultValue);
        }

        @SuppressWarnings("unchecked")
        public void forEach(BiConsumer<? super K, ? super V> action) {
            ((Map<K, V>) map).forEach(action);
        }

        public Set<K> keySet() {
            return new OfSet<K>(map.keySet());
        }

        public Collection<V> values() {
            return new OfCollection<V>(map.values());
        }

        @SuppressWarnings("unchecked")
        public Set<Map.Entry<K, V>> entrySet() {
            return new OfEntries<K, V>(((Map<K, V>) map).entrySet());
        }

        public V put(K key, V value) {
            throw new UnsupportedOperationException();
        }

        public V remove(Object key) {
            throw new UnsupportedOperationException();
        }

        public void putAll(Map<? extends K, ? extends V> others) {
            throw new UnsupportedOperationException();
        }

        public void clear() {
            throw new UnsupportedOperationException();
        }

        public V putIfAbsent(K key, V value) {
            throw new UnsupportedOperationException();
        }

        public boolean remove(Object key, Object value) {
            throw new UnsupportedOperationException();
        }

        public boolean replace(K key, V oldValue, V newValue) {
            throw new UnsupportedOperationException();
        }

        public V replace(K key, V value) {
            throw new UnsupportedOperationException();
        }

        public void replaceAll(BiFunction<? super K, ? super V, ? extends V> function) {
            throw new UnsupportedOperationException();
        }

        public V computeIfAbsent(K key, Function<? super K, ? extends V> function) {
            throw new UnsupportedOperationException();
        }

        public V computeIfPresent(K key, BiFunction<? super K, ? super V, ? extends V> function) {
            throw new UnsupportedOperationException();
        }

        public V compute(K key, BiFunction<? super K, ? super V, ? extends V> function) {
            throw new UnsupportedOperationException();
        }

        public V merge(K key, V value, BiFunction<? super V, ? super V, ? extends V> function) {
            throw new UnsupportedOperationException();
        }
    }

    /** Entries whose values can't be set. */
    private static final class OfEntries<K, V> extends OfSet<Map.Entry<K, V>> {
        OfEntries(Set<Map.Entry<K, V>> entries) {
            super(entries);
        }

        public Iterator<Map.Entry<K, V>> iterator() {
            final Iterator<? extends Map.Entry<K, V>> it = c.iterator();
            return new Iterator<Map.Entry<K, V>>() {
                public boolean hasNext() {
                    return it.hasNext();
                }

                public Map.Entry<K, V> next() {
                    return new OfEntry<K, V>(it.next());
                }

                public void remove() {
                    throw new UnsupportedOperationException();
                }
            };
        }

        @SuppressWarnings("unchecked")
        public Object[] toArray() {
            return wrapped(c.toArray());
        }

        @SuppressWarnings("unchecked")
        public <T> T[] toArray(T[] a) {
            return (T[]) wrapped(c.toArray(a));
        }

        @SuppressWarnings("unchecked")
        private Object[] wrapped(Object[] entries) {
            int size = size();
            for (int i = 0; i < size; i++) {
                entries[i] = new OfEntry<K, V>((Map.Entry<K, V>) entries[i]);
            }
            return entries;
        }

        public void forEach(final Consumer<? super Map.Entry<K, V>> action) {
            if (action == null) {
                throw new NullPointerException();
            }
            c.forEach(new Consumer<Map.Entry<K, V>>() {
                public void accept(Map.Entry<K, V> entry) {
                    action.accept(new OfEntry<K, V>(entry));
                }
            });
        }
    }

    private static final class OfEntry<K, V> implements Map.Entry<K, V> {
        private final Map.Entry<? extends K, ? extends V> entry;

        OfEntry(Map.Entry<? extends K, ? extends V> entry) {
            this.entry = entry;
        }

        public K getKey() {
            return entry.getKey();
        }

        public V getValue() {
            return entry.getValue();
        }

        public V setValue(V value) {
            throw new UnsupportedOperationException();
        }

        public int hashCode() {
            return varexj.lang.ObjectMembers.hashCode(entry);
        }

        public boolean equals(Object o) {
            return o == this || AbstractMap.isEntry(o, entry.getKey(), entry.getValue());
        }

        public String toString() {
            return entry.toString();
        }
    }

    static class OfSortedMap<K, V> extends OfMap<K, V> implements SortedMap<K, V> {
        private final SortedMap<K, ? extends V> sorted;

        OfSortedMap(SortedMap<K, ? extends V> map) {
            super(map);
            sorted = map;
        }

        public Comparator<? super K> comparator() {
            return sorted.comparator();
        }

        public K firstKey() {
            return sorted.firstKey();
        }

        public K lastKey() {
            return sorted.lastKey();
        }

        public SortedMap<K, V> subMap(K from, K to) {
            return new OfSortedMap<K, V>(sorted.subMap(from, to));
        }

        public SortedMap<K, V> headMap(K to) {
            return new OfSortedMap<K, V>(sorted.headMap(to));
        }

        public SortedMap<K, V> tailMap(K from) {
            return new OfSortedMap<K, V>(sorted.tailMap(from));
        }
    }

    static final class OfNavigableMap<K, V> extends OfSortedMap<K, V> implements NavigableMap<K, V> {
        private final NavigableMap<K, ? extends V> sorted;

        OfNavigableMap(NavigableMap<K, ? extends V> map) {
            super(map);
            sorted = map;
        }

        private Map.Entry<K, V> wrapped(Map.Entry<K, ? extends V> entry) {
            return entry == null ? null : new OfEntry<K, V>(entry);
        }

        public Map.Entry<K, V> lowerEntry(K key) {
            return wrapped(sorted.lowerEntry(key));
        }

        public K lowerKey(K key) {
            return sorted.lowerKey(key);
        }

        public Map.Entry<K, V> floorEntry(K key) {
            return wrapped(sorted.floorEntry(key));
        }

        public K floorKey(K key) {
            return sorted.floorKey(key);
        }

        public Map.Entry<K, V> ceilingEntry(K key) {
            return wrapped(sorted.ceilingEntry(key));
        }

        public K ceilingKey(K key) {
            return sorted.ceilingKey(key);
        }

        public Map.Entry<K, V> higherEntry(K key) {
            return wrapped(sorted.higherEntry(key));
        }

        public K higherKey(K key) {
            return sorted.higherKey(key);
        }

        public Map.Entry<K, V> firstEntry() {
            return wrapped(sorted.firstEntry());
        }

        public Map.Entry<K, V> lastEntry() {
            return wrapped(sorted.lastEntry());
        }

        public Map.Entry<K, V> pollFirstEntry() {
            throw new UnsupportedOperationException();
        }

        public Map.Entry<K, V> pollLastEntry() {
            throw new UnsupportedOperationException();
        }

        public NavigableMap<K, V> descendingMap() {
            return new OfNavigableMap<K, V>(sorted.descendingMap());
        }

        public NavigableSet<K> navigableKeySet() {
            return new OfNavigableSet<K>(sorted.navigableKeySet());
        }

        public NavigableSet<K> descendingKeySet() {
            return new OfNavigableSet<K>(sorted.descendingKeySet());
        }

        public NavigableMap<K, V> subMap(K from, boolean fromInclusive, K to, boolean toInclusive) {
            return new OfNavigableMap<K, V>(sorted.subMap(from, fromInclusive, to, toInclusive));
        }

        public NavigableMap<K, V> headMap(K to, boolean inclusive) {
            return new OfNavigableMap<K, V>(sorted.headMap(to, inclusive));
        }

        public NavigableMap<K, V> tailMap(K from, boolean inclusive) {
            return new OfNavigableMap<K, V>(sorted.tailMap(from, inclusive));
        }
    }
}
