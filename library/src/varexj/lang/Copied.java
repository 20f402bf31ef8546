package varexj.lang;

/** An object that is copied field by field: {@code prepare} gives each class below Cloneable this interface. */
public interface Copied {
    /** A new object of the same class whose fields have the values of this one's: what {@code super.clone()} of Object gives. */
    Object varexjCopy();
}
