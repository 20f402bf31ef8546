package varexj.lang;

/**
 * An object with a number of its own: {@code prepare} gives this interface to each class that neither has nor inherits a {@code hashCode}, and a
 * field for the number, which is {@link ObjectMembers#nextIdentity()} at first use.
 */
public interface Identity {
    /** The number of this object, from 1 on, the same each time. */
    int varexjIdentity();
}
