package varexj.lang;

/**
 * What is known of class objects. The machine knows nothing of them, so each method here ends the run; {@code prepare} writes a class of this name and
 * these methods in its place, which looks the answers up.
 */
public final class ClassTable {
    private ClassTable() {
    }

    /** The name, as {@code Class.getName()} gives it. */
    public static native String getName(Class<?> type);

    /** The name without package and outer classes. */
    public static native String getSimpleName(Class<?> type);

    /** The name as it is written in a source, or null where it can't be written. */
    public static native String getCanonicalName(Class<?> type);

    /** The constants of an enum in their order, in a new array, or null where the class is none. */
    public static native Object[] getEnumConstants(Class<?> type);

    /** The superclass, or null. */
    public static native Class<?> getSuperclass(Class<?> type);

    /** Whether the class is an interface. */
    public static native boolean isInterface(Class<?> type);

    /** Whether the object is of this class or one below it. */
    public static native boolean isInstance(Class<?> type, Object object);

    /** The class of an object that isn't a {@link ClassOf} and of no core class: an array, or an object of the library. */
    public static native Class<?> getClass(Object object);
}
