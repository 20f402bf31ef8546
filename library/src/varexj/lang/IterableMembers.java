package varexj.lang;

import java.util.Iterator;
import java.util.function.Consumer;

/** The members of Iterable that the machine doesn't have, where the class doesn't say otherwise. */
public final class IterableMembers {
    private IterableMembers() {
    }

    /** {@code elements.forEach(action)}. */
    public static <T> void forEach(Iterable<T> elements, Consumer<? super T> action) {
        if (action == null) {
            throw new NullPointerException();
        }
        for (Iterator<T> each = elements.iterator(); each.hasNext();) {
            action.accept(each.next());
        }
    }
}
