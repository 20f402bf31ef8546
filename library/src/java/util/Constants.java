package java.util;

import java.util.function.BiConsumer;
import java.util.function.BiFunction;
import java.util.function.Consumer;
import java.util.function.Function;
import java.util.function.Predicate;
import java.util.function.UnaryOperator;
import varexj.lang.ObjectMembers;

/** The collections of Collections that stay as they are: empty ones, those of one element, and copies of one. */
final class Constants {
    private static EmptyList emptyList;
    private static EmptySet emptySet;
    private static EmptyMap emptyMap;

    private Constants() {
    }

    @SuppressWarnings("unchecked")
    static <T> List<T> list() {
        if (emptyList == null) {
            emptyList = new EmptyList();
        }
        return (List<T>) emptyList;
    }

    @SuppressWarnings("unchecked")
    static <T> Set<T> set() {
        if (emptySet == null) {
            emptySet = new EmptySet();
        }
        return (Set<T>) emptySet;
    }

    @SuppressWarnings("unchecked")
    static <K, V> Map<K, V> map() {
        if (emptyMap == null) {
            emptyMap = new EmptyMap();
        }
        return (Map<K, V>) emptyMap;
    }

    private static UnsupportedOperationException refused() {
        return new UnsupportedOperationException();
    }

    private static void wanted(Object o) {
        if (o == null) {
            throw new NullPointerException();
        }
    }

    /** An iterator over at most one element. */
    private static final class Once implements ListIterator<Object> {
        private final Object element;
        private boolean hasNext;
        private final boolean empty;

        Once(Object element, boolean empty) {
            this.element = element;
            this.empty = empty;
            hasNext = !empty;
        }

        public boolean hasNext() {
            return hasNext;
        }

        public Object next() {
            if (!hasNext) {
                throw new NoSuchElementException();
            }
            hasNext = false;
            return element;
        }

        public boolean hasPrevious() {
            return false;
        }

        public Object previous() {
            throw new NoSuchElementException();
        }

        public int nextIndex() {
            return 0;
        }

        public int previousIndex() {
            return -1;
        }

        public void remove() {
            if (empty) {
                throw new IllegalStateException();
            }
            throw refused();
        }

        public void set(Object o) {
            throw new IllegalStateException();
        }

        public void add(Object o) {
            throw refused();
        }
    }

    private static final class EmptyList extends AbstractList<Object> implements RandomAccess, java.io.Serializable {
        public int size() {
            return 0;
        }

        public Object get(int index) {
            throw new IndexOutOfBoundsException("Index: " + index);
        }

        public Iterator<Object> iterator() {
            return new Once(null, true);
        }

        public ListIterator<Object> listIterator() {
            return new Once(null, true);
        }

        public boolean removeIf(Predicate<? super Object> filter) {
            wanted(filter);
            return false;
        }

        public void replaceAll(UnaryOperator<Object> operator) {
            wanted(operator);
        }

        public void sort(Comparator<? super Object> c) {
        }

        public void forEach(Consumer<? super Object> action) {
            wanted(action);
        }

        public boolean equals(Object o) {
            return o instanceof List && ((List<?>) o).isEmpty();
        }

        public int hashCode() {
            return 1;
        }
    }

    private static final class EmptySet extends AbstractSet<Object> implements java.io.Serializable {
        public int size() {
            return 0;
        }

        public void clear() {
        }

        public Iterator<Object> iterator() {
            return new Once(null, true);
        }

        public boolean removeIf(Predicate<? super Object> filter) {
            wanted(filter);
            return false;
        }

        public int hashCode() {
            return 0;
        }
    }

    private static class FixedMap<K, V> extends AbstractMap<K, V> implements java.io.Serializable {
        public Set<Map.Entry<K, V>> entrySet() {
            return set();
        }

        public V putIfAbsent(K key, V value) {
            throw refused();
        }

        public boolean remove(Object key, Object value) {
            throw refused();
        }

        public boolean replace(K key, V oldValue, V newValue) {
            throw refused();
        }

        public V replace(K key, V value) {
            throw refused();
        }

        public V computeIfAbsent(K key, Function<? super K, ? extends V> mappingFunction) {
            throw refused();
        }

        public V computeIfPresent(K key, BiFunction<? super K, ? super V, ? extends V> remappingFunction) {
            throw refused();
        }

        public V compute(K key, BiFunction<? super K, ? super V, ? extends V> remappingFunction) {
            throw refused();
        }

        public V merge(K key, V value, BiFunction<? super V, ? super V, ? extends V> remappingFunction) {
            throw refused();
        }
    }

    private static final class EmptyMap extends FixedMap<Object, Object> {
        public int size() {
            return 0;
        }

        public void clear() {
        }

        public Set<Object> keySet() {
            return set();
        }

        public Collection<Object> values() {
            return set();
        }

        public Object get(Object key) {
            return null;
        }

        public boolean containsKey(Object key) {
            return false;
        }

        public boolean containsValue(Object value) {
            return false;
        }

        public void forEach(BiConsumer<? super Object, ? super Object> action) {
            wanted(action);
        }

        public void replaceAll(BiFunction<? super Object, ? super Object, ? extends Object> function) {
            wanted(function);
        }
    }

    static final class OneList<E> extends AbstractList<E> implements RandomAccess, java.io.Serializable {
        private final E element;

        OneList(E element) {
            this.element = element;
        }

        public int size() {
            return 1;
        }

        public boolean contains(Object o) {
            return o == null ? element == null : o.equals(element);
        }

        public E get(int index) {
            if (index != 0) {
                throw new IndexOutOfBoundsException("Index: " + index + ", Size: 1");
            }
            return element;
        }

        @SuppressWarnings("unchecked")
        public Iterator<E> iterator() {
            return (Iterator<E>) new Once(element, false);
        }

        public boolean removeIf(Predicate<? super E> filter) {
            throw refused();
        }

        public void replaceAll(UnaryOperator<E> operator) {
            throw refused();
        }

        public void sort(Comparator<? super E> c) {
        }
    }

    static final class OneSet<E> extends AbstractSet<E> implements java.io.Serializable {
        private final E element;

        OneSet(E element) {
            this.element = element;
        }

        public int size() {
            return 1;
        }

        public boolean contains(Object o) {
            return o == null ? element == null : o.equals(element);
        }

        @SuppressWarnings("unchecked")
        public Iterator<E> iterator() {
            return (Iterator<E>) new Once(element, false);
        }

        public boolean removeIf(Predicate<? super E> filter) {
            throw refused();
        }
    }

    static final class OneMap<K, V> extends FixedMap<K, V> {
        private final K key;
        private final V value;

        OneMap(K key, V value) {
            this.key = key;
            this.value = value;
        }

        public int size() {
            return 1;
        }

        public Set<Map.Entry<K, V>> entrySet() {
            return new OneSet<Map.Entry<K, V>>(new SimpleImmutableEntry<K, V>(key, value));
        }

        public Set<K> keySet() {
            return new OneSet<K>(key);
        }

        public Collection<V> values() {
            return new OneSet<V>(value);
        }

        public boolean containsKey(Object o) {
            return o == null ? key == null : o.equals(key);
        }

        public boolean containsValue(Object o) {
            return o == null ? value == null : o.equals(value);
        }

        public V get(Object o) {
            return containsKey(o) ? value : null;
        }

        public void replaceAll(BiFunction<? super K, ? super V, ? extends V> function) {
            throw refused();
        }
    }

    static final class Copies<E> extends AbstractList<E> implements RandomAccess, java.io.Serializable {
        private final int count;
        private final E element;

        Copies(int count, E element) {
            this.count = count;
            this.element = element;
        }

        public int size() {
            return count;
        }

        public boolean contains(Object o) {
            return count != 0 && (o == null ? element == null : o.equals(element));
        }

        public int indexOf(Object o) {
            return contains(o) ? 0 : -1;
        }

        public int lastIndexOf(Object o) {
            return contains(o) ? count - 1 : -1;
        }

        public E get(int index) {
            if (index < 0 || index >= count) {
                throw new IndexOutOfBoundsException(outside(index, count));
            }
            return element;
        }

        public Object[] toArray() {
            Object[] all = new Object[count];
            if (element != null) {
                Arrays.fill(all, element);
            }
            return all;
        }

        public List<E> subList(int fromIndex, int toIndex) {
            checkRange(fromIndex, toIndex, count);
            return new Copies<E>(toIndex - fromIndex, element);
        }

        public int hashCode() {
            int hash = 1;
            int one = element == null ? 0 : ObjectMembers.hashCode(element);
            for (int i = 0; i < count; i++) {
                hash = 31 * hash + one;
            }
            return hash;
        }
    }
}
