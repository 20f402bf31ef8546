package varexj.lang;

/** Members of Class that the machine doesn't have, as static methods of the class object. What is known of classes is {@link ClassTable}'s. */
public final class ClassMembers {
    private ClassMembers() {
    }

    /** {@code type.getName()}. */
    public static String getName(Class<?> type) {
        return ClassTable.getName(type);
    }

    /** {@code type.getSimpleName()}. */
    public static String getSimpleName(Class<?> type) {
        return ClassTable.getSimpleName(type);
    }

    /** {@code type.getCanonicalName()}. */
    public static String getCanonicalName(Class<?> type) {
        return ClassTable.getCanonicalName(type);
    }

    /** {@code type.getEnumConstants()}. */
    public static Object[] getEnumConstants(Class<?> type) {
        return ClassTable.getEnumConstants(type);
    }

    /** {@code type.isEnum()}. */
    public static boolean isEnum(Class<?> type) {
        return ClassTable.getSuperclass(type) == Enum.class;
    }

    /** {@code type.getSuperclass()}. */
    public static Class<?> getSuperclass(Class<?> type) {
        return ClassTable.getSuperclass(type);
    }

    /** {@code type.isInterface()}. */
    public static boolean isInterface(Class<?> type) {
        return ClassTable.isInterface(type);
    }

    /** {@code type.isInstance(object)}. */
    public static boolean isInstance(Class<?> type, Object object) {
        return object != null && ClassTable.isInstance(type, object);
    }

    /** {@code type.cast(object)}. */
    public static Object cast(Class<?> type, Object object) {
        if (object != null && !ClassTable.isInstance(type, object)) {
            throw new ClassCastException("Cannot cast " + ObjectMembers.nameOfClass(object) + " to " + getName(type));
        }
        return object;
    }

    /** {@code type.hashCode()}: a number by first use. */
    public static int hashCode(Class<?> type) {
        return ObjectMembers.identityHashCode(type);
    }

    /** {@code type.toString()}. */
    public static String toString(Class<?> type) {
        return (ClassTable.isInterface(type) ? "interface " : "class ").concat(getName(type));
    }
}
