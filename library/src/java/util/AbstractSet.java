package java.util;

import varexj.lang.ObjectMembers;

/** What a set can do over its iterator and its size. */
public abstract class AbstractSet<E> extends AbstractCollection<E> implements Set<E> {
    protected AbstractSet() {
    }

    public boolean equals(Object o) {
        if (o == this) {
            return true;
        }
        if (!(o instanceof Set)) {
            return false;
        }
        Collection<?> c = (Collection<?>) o;
        if (c.size() != size()) {
            return false;
        }
        try {
            return containsAll(c);
        } catch (ClassCastException e) {
            return false;
        } catch (NullPointerException e) {
            return false;
        }
    }

    public int hashCode() {
        int sum = 0;
        for (Iterator<E> it = iterator(); it.hasNext();) {
            E element = it.next();
            if (element != null) {
                sum += ObjectMembers.hashCode(element);
            }
        }
        return sum;
    }

    public boolean removeAll(Collection<?> c) {
        if (c == null) {
            throw new NullPointerException();
        }
        boolean changed = false;
        if (size() > c.size()) {
            for (Iterator<?> it = ImmutableSet.anyOrder(c); it.hasNext();) {
                if (remove(it.next())) {
                    changed = true;
                }
            }
        } else {
            for (Iterator<E> it = iterator(); it.hasNext();) {
                if (c.contains(it.next())) {
                    it.remove();
                    changed = true;
                }
            }
        }
        return changed;
    }
}
