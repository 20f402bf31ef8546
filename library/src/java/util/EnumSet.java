package java.util;

import varexj.lang.ClassMembers;
import varexj.lang.EnumMembers;

/**
 * A set of constants of an enum, in their order: one stands at the place of its ordinal. {@code allOf}, {@code range} and {@code complementOf} ask for
 * all constants of the enum, which the machine doesn't know by itself.
 */
public abstract class EnumSet<E extends Enum<E>> extends AbstractSet<E> implements Cloneable, java.io.Serializable {
    EnumSet() {
    }

    public static <E extends Enum<E>> EnumSet<E> noneOf(Class<E> elementType) {
        if (elementType == null) {
            throw new NullPointerException();
        }
        return new Places<E>(elementType);
    }

    private static void addAll(EnumSet<?> set, Object[] constants, int from, int to) {
        for (int i = from; i < to; i++) {
            ((Places<?>) set).put((Enum<?>) constants[i]);
        }
    }

    public static <E extends Enum<E>> EnumSet<E> allOf(Class<E> elementType) {
        EnumSet<E> set = noneOf(elementType);
        Object[] constants = ClassMembers.getEnumConstants(elementType);
        addAll(set, constants, 0, constants.length);
        return set;
    }

    public static <E extends Enum<E>> EnumSet<E> copyOf(EnumSet<E> s) {
        return s.clone();
    }

    public static <E extends Enum<E>> EnumSet<E> copyOf(Collection<E> c) {
        if (c instanceof EnumSet) {
            return ((EnumSet<E>) c).clone();
        }
        if (c.isEmpty()) {
            throw new IllegalArgumentException("Collection is empty");
        }
        Places<E> set = new Places<E>(null);
        for (Iterator<E> it = ImmutableSet.anyOrder(c); it.hasNext();) {
            set.add(it.next());
        }
        return set;
    }

    public static <E extends Enum<E>> EnumSet<E> complementOf(EnumSet<E> s) {
        Places<E> old = (Places<E>) s;
        Class<?> type = old.type();
        Places<E> set = new Places<E>(type);
        Object[] constants = ClassMembers.getEnumConstants(type);
        for (int i = 0; i < constants.length; i++) {
            if (!s.contains(constants[i])) {
                set.put((Enum<?>) constants[i]);
            }
        }
        return set;
    }

    private static <E extends Enum<E>> EnumSet<E> ofThese(Object[] elements) {
        Places<E> set = new Places<E>(null);
        for (int i = 0; i < elements.length; i++) {
            if (elements[i] == null) {
                throw new NullPointerException();
            }
            set.put((Enum<?>) elements[i]);
        }
        return set;
    }

    public static <E extends Enum<E>> EnumSet<E> of(E e) {
        return ofThese(new Object[] {e});
    }

    public static <E extends Enum<E>> EnumSet<E> of(E e1, E e2) {
        return ofThese(new Object[] {e1, e2});
    }

    public static <E extends Enum<E>> EnumSet<E> of(E e1, E e2, E e3) {
        return ofThese(new Object[] {e1, e2, e3});
    }

    public static <E extends Enum<E>> EnumSet<E> of(E e1, E e2, E e3, E e4) {
        return ofThese(new Object[] {e1, e2, e3, e4});
    }

    public static <E extends Enum<E>> EnumSet<E> of(E e1, E e2, E e3, E e4, E e5) {
        return ofThese(new Object[] {e1, e2, e3, e4, e5});
    }

    @SafeVarargs
    public static <E extends Enum<E>> EnumSet<E> of(E first, E... rest) {
        EnumSet<E> set = of(first);
        for (int i = 0; i < rest.length; i++) {
            set.add(rest[i]);
        }
        return set;
    }

    public static <E extends Enum<E>> EnumSet<E> range(E from, E to) {
        if (from.compareTo(to) > 0) {
            throw new IllegalArgumentException(from + " > " + to);
        }
        Class<?> type = EnumMembers.getDeclaringClass(from);
        Places<E> set = new Places<E>(type);
        addAll(set, ClassMembers.getEnumConstants(type), from.ordinal(), to.ordinal() + 1);
        return set;
    }

    public EnumSet<E> clone() {
        Places<E> old = (Places<E>) this;
        Places<E> copy = new Places<E>(old.type);
        copy.items = old.items.clone();
        copy.size = old.size;
        return copy;
    }

    /** The only kind of it. */
    private static final class Places<E extends Enum<E>> extends EnumSet<E> {
        /** The class of the enum, where it was told. */
        private final Class<?> type;
        private Object[] items = new Object[16];
        private int size;

        Places(Class<?> type) {
            this.type = type;
        }

        Class<?> type() {
            if (type != null || size == 0) {
                return type;
            }
            int at = 0;
            while (items[at] == null) {
                at++;
            }
            return EnumMembers.getDeclaringClass((Enum<?>) items[at]);
        }

        boolean put(Enum<?> constant) {
            int at = constant.ordinal();
            if (at >= items.length) {
                Object[] more = new Object[ArrayList.room(items.length, at + 1)];
                System.arraycopy(items, 0, more, 0, items.length);
                items = more;
            }
            if (items[at] == null) {
                items[at] = constant;
                size++;
                return true;
            }
            if (items[at] != constant) {
                throw new ClassCastException();
            }
            return false;
        }

        public boolean add(E e) {
            return put(e);
        }

        public boolean contains(Object o) {
            if (!(o instanceof Enum)) {
                return false;
            }
            int at = ((Enum<?>) o).ordinal();
            return at < items.length && items[at] == o;
        }

        public boolean remove(Object o) {
            if (!contains(o)) {
                return false;
            }
            items[((Enum<?>) o).ordinal()] = null;
            size--;
            return true;
        }

        public int size() {
            return size;
        }

        public void clear() {
            for (int i = 0; i < items.length; i++) {
                items[i] = null;
            }
            size = 0;
        }

        public Iterator<E> iterator() {
            return new Walk<E>(this, items.clone());
        }
    }

    /** An iterator over the elements that were there when it was made. */
    private static final class Walk<E extends Enum<E>> implements Iterator<E> {
        private final Places<E> set;
        private final Object[] items;
        private int cursor;
        private Object last;

        Walk(Places<E> set, Object[] items) {
            this.set = set;
            this.items = items;
        }

        public boolean hasNext() {
            while (cursor < items.length && items[cursor] == null) {
                cursor++;
            }
            return cursor < items.length;
        }

        @SuppressWarnings("unchecked")
        public E next() {
            if (!hasNext()) {
                throw new NoSuchElementException();
            }
            last = items[cursor];
            cursor++;
            return (E) last;
        }

        public void remove() {
            if (last == null) {
                throw new IllegalStateException();
            }
            set.remove(last);
            last = null;
        }
    }
}
