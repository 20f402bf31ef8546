package varexj.lang;

import java.io.PrintStream;

/** The members of Object that the machine doesn't have, as static methods of the object. */
public final class ObjectMembers {
    private static int identities;
    private static Object[] numbered = new Object[4];
    private static int[] numbers = new int[4];
    private static int numberedCount;

    private ObjectMembers() {
    }

    /**
     * What {@code object.hashCode()} gives on a Java machine. Where that is a number that the machine chooses, as for arrays, it is one by first use,
     * from 1 on; for the constant of an enum it is the hash of its name.
     */
    public static int hashCode(Object object) {
        if (object instanceof String) {
            return object.hashCode();
        }
        if (object instanceof Integer) {
            return object.hashCode();
        }
        if (object instanceof Comparable) {
            if (object instanceof Enum) {
                return ((Enum<?>) object).name().hashCode();
            }
            if (object instanceof Boolean) {
                return ((Boolean) object).booleanValue() ? 1231 : 1237;
            }
            return object.hashCode();
        }
        if (hasNoHash(object)) {
            return identityHashCode(object);
        }
        return object.hashCode();
    }

    /** Whether this is an array or an object of a core class that leaves hashCode to Object. Throwables aside: those of a program may have one. */
    private static boolean hasNoHash(Object object) {
        if (object instanceof Cloneable) {
            return isArray(object);
        }
        return object instanceof StringBuilder || object instanceof Class || object instanceof PrintStream;
    }

    /** Whether this is an array. */
    static boolean isArray(Object object) {
        return object instanceof Object[] || object instanceof int[] || object instanceof char[] || object instanceof byte[]
                || object instanceof long[] || object instanceof boolean[] || object instanceof short[];
    }

    /** {@code object.equals(other)}. */
    public static boolean equals(Object object, Object other) {
        return object.equals(other);
    }

    /** What {@code object.toString()} gives; the number behind the sign {@code @} of what has no text of its own is {@link #hashCode}. */
    public static String toString(Object object) {
        if (object instanceof Class) {
            return ClassMembers.toString((Class<?>) object);
        }
        if (object instanceof Cloneable && isArray(object) || object instanceof PrintStream) {
            return identityToString(object);
        }
        return object.toString();
    }

    /** {@code System.identityHashCode(object)}: what {@code super.hashCode()} gives where it leads to Object. */
    public static int identityHashCode(Object object) {
        if (object == null) {
            return 0;
        }
        if (object instanceof Identity) {
            return ((Identity) object).varexjIdentity();
        }
        for (int at = 0; at < numberedCount; at++) {
            if (numbered[at] == object) {
                return numbers[at];
            }
        }
        if (numberedCount == numbered.length) {
            Object[] objects = new Object[2 * numberedCount];
            int[] of = new int[2 * numberedCount];
            System.arraycopy(numbered, 0, objects, 0, numberedCount);
            System.arraycopy(numbers, 0, of, 0, numberedCount);
            numbered = objects;
            numbers = of;
        }
        int number = nextIdentity();
        numbered[numberedCount] = object;
        numbers[numberedCount] = number;
        numberedCount++;
        return number;
    }

    /**
     * What {@code super.toString()} gives where it leads to Object: the name of the class, the sign {@code @} and the hash in hexadecimal, which is that of
     * the class where it has one of its own.
     */
    public static String identityToString(Object object) {
        return nameOfClass(object).concat("@").concat(IntegerMembers.toHexString(hashCode(object)));
    }

    /** The next number for an object that is asked for its number for the first time, from 1 on. */
    public static int nextIdentity() {
        identities++;
        return identities;
    }

    /** The name of the class of an object, as {@code object.getClass().getName()}. */
    static String nameOfClass(Object object) {
        if (object instanceof Throwable) {
            return ThrowableMembers.nameOfClass((Throwable) object);
        }
        if (object instanceof Object[]) {
            return object instanceof String[] ? "[Ljava.lang.String;" : object instanceof Integer[] ? "[Ljava.lang.Integer;"
                    : ClassTable.getName(getClass(object));
        }
        return object instanceof int[] ? "[I" : object instanceof char[] ? "[C" : object instanceof byte[] ? "[B"
                : object instanceof long[] ? "[J" : object instanceof boolean[] ? "[Z" : object instanceof short[] ? "[S"
                : object instanceof PrintStream ? "java.io.PrintStream" : ClassMembers.getName(getClass(object));
    }

    /** {@code object.getClass()}. */
    public static Class<?> getClass(Object object) {
        if (object instanceof ClassOf) {
            return ((ClassOf) object).varexjClass();
        }
        if (object == null) {
            throw new NullPointerException();
        }
        if (object instanceof String) {
            return String.class;
        }
        if (object instanceof Integer) {
            return Integer.class;
        }
        if (object instanceof Boolean) {
            return Boolean.class;
        }
        if (object instanceof StringBuilder) {
            return StringBuilder.class;
        }
        if (object instanceof Class) {
            return Class.class;
        }
        if (object instanceof Throwable) {
            return ThrowableMembers.classOf((Throwable) object);
        }
        return isArray(object) ? classOfArray(object) : ClassTable.getClass(object);
    }

    private static Class<?> classOfArray(Object array) {
        return array instanceof int[] ? int[].class : array instanceof char[] ? char[].class : array instanceof byte[] ? byte[].class
                : array instanceof long[] ? long[].class : array instanceof boolean[] ? boolean[].class
                : array instanceof short[] ? short[].class : array instanceof String[] ? String[].class
                : array instanceof Integer[] ? Integer[].class : ClassTable.getClass(array);
    }

    /** What {@code super.clone()} gives where it leads to Object. */
    public static Object clone(Object object) throws CloneNotSupportedException {
        if (object instanceof Copied) {
            return ((Copied) object).varexjCopy();
        }
        if (object instanceof Cloneable) {
            return copyOf(object);
        }
        throw new CloneNotSupportedException(nameOfClass(object));
    }

    private static native Object copyOf(Object object);

    /** {@code super.finalize()} where it leads to Object: nothing. */
    public static void finalize(Object object) {
    }
}
