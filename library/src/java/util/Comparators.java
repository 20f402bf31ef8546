package java.util;

/** The orders behind the static methods of Comparator and Collections. */
final class Comparators {
    static final Comparator<Object> NATURAL = new Natural();
    static final Comparator<Object> REVERSE = new Reverse();

    private Comparators() {
    }

    /** An order backwards; that of the elements themselves where there is none. */
    @SuppressWarnings("unchecked")
    static <T> Comparator<T> reversed(Comparator<T> cmp) {
        if (cmp == null) {
            return (Comparator<T>) REVERSE;
        }
        if (cmp == REVERSE) {
            return (Comparator<T>) NATURAL;
        }
        if (cmp == NATURAL) {
            return (Comparator<T>) REVERSE;
        }
        if (cmp instanceof Backwards) {
            return ((Backwards<T>) cmp).order;
        }
        return new Backwards<T>(cmp);
    }

    /** The order of the elements themselves. */
    private static final class Natural implements Comparator<Object> {
        @SuppressWarnings("unchecked")
        public int compare(Object one, Object other) {
            return ((Comparable<Object>) one).compareTo(other);
        }

        public Comparator<Object> reversed() {
            return REVERSE;
        }
    }

    /** The order of the elements themselves, backwards. */
    private static final class Reverse implements Comparator<Object> {
        @SuppressWarnings("unchecked")
        public int compare(Object one, Object other) {
            return ((Comparable<Object>) other).compareTo(one);
        }

        public Comparator<Object> reversed() {
            return NATURAL;
        }
    }

    /** An order backwards. */
    static final class Backwards<T> implements Comparator<T> {
        final Comparator<T> order;

        Backwards(Comparator<T> order) {
            this.order = order;
        }

        public int compare(T one, T other) {
            return order.compare(other, one);
        }

        public Comparator<T> reversed() {
            return order;
        }

        public boolean equals(Object o) {
            return o == this || o instanceof Backwards && order.equals(((Backwards<?>) o).order);
        }

        public int hashCode() {
            return varexj.lang.ObjectMembers.hashCode(order) ^ Integer.MIN_VALUE;
        }
    }

    /** One order, and another one where it says equal. */
    static final class Then<T> implements Comparator<T> {
        private final Comparator<T> first;
        private final Comparator<? super T> second;

        Then(Comparator<T> first, Comparator<? super T> second) {
            this.first = first;
            this.second = second;
        }

        public int compare(T one, T other) {
            int result = first.compare(one, other);
            return result != 0 ? result : second.compare(one, other);
        }
    }

    /** Nulls at one end. */
    static final class Nulls<T> implements Comparator<T> {
        private final boolean first;
        private final Comparator<T> order;

        @SuppressWarnings("unchecked")
        Nulls(boolean first, Comparator<? super T> order) {
            this.first = first;
            this.order = (Comparator<T>) order;
        }

        public int compare(T one, T other) {
            if (one == null) {
                return other == null ? 0 : first ? -1 : 1;
            }
            if (other == null) {
                return first ? 1 : -1;
            }
            return order == null ? 0 : order.compare(one, other);
        }

        public Comparator<T> thenComparing(Comparator<? super T> other) {
            if (other == null) {
                throw new NullPointerException();
            }
            return new Nulls<T>(first, order == null ? other : order.thenComparing(other));
        }

        public Comparator<T> reversed() {
            return new Nulls<T>(!first, order == null ? null : order.reversed());
        }
    }
}
