package varexj.lang;

import java.util.Iterator;
import java.util.function.Consumer;

/** The members of Iterator that the machine doesn't have, where the class doesn't say otherwise. */
public final class IteratorMembers {
    private IteratorMembers() {
    }

    /** {@code each.remove()} of one that doesn't have it. */
    public static void remove(Iterator<?> each) {
        throw new UnsupportedOperationException("remove");
    }

    /** {@code each.forEachRemaining(action)}. */
    public static <E> void forEachRemaining(Iterator<E> each, Consumer<? super E> action) {
        if (action == null) {
            throw new NullPointerException();
        }
        while (each.hasNext()) {
            action.accept(each.next());
        }
    }
}
