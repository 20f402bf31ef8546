package java.util;

/** Arrays of the class of another array, as far as the machine can tell the class. */
final class ArrayKinds {
    private ArrayKinds() {
    }

    /** What no store into an array of another class than Object[] lets in. */
    private static final class Probe {
    }

    /** The array itself where it has room for so many elements, and else a new one of its class, of just that length. */
    @SuppressWarnings("unchecked")
    static <T> T[] withRoom(T[] array, int length) {
        return array.length >= length ? array : (T[]) like(array, length);
    }

    /** A new array of the class of another one. Ends the run where the class can't be told. */
    static Object[] like(Object[] array, int length) {
        if (length == array.length) {
            return cleared(array.clone());
        }
        if (array instanceof String[]) {
            return new String[length];
        }
        if (array instanceof Integer[]) {
            return new Integer[length];
        }
        if (holdsAnything(array)) {
            return new Object[length];
        }
        return likeOthers(array, length);
    }

    private static Object[] likeOthers(Object[] array, int length) {
        if (array instanceof Boolean[]) {
            return new Boolean[length];
        }
        if (array instanceof Long[]) {
            return new Long[length];
        }
        if (array instanceof Character[]) {
            return new Character[length];
        }
        if (array instanceof int[][]) {
            return new int[length][];
        }
        if (array instanceof char[][]) {
            return new char[length][];
        }
        if (array instanceof boolean[][]) {
            return new boolean[length][];
        }
        if (array instanceof long[][]) {
            return new long[length][];
        }
        if (array instanceof String[][]) {
            return new String[length][];
        }
        return newArrayOfTheSameClass(array, length);
    }

    private static Object[] cleared(Object[] array) {
        for (int i = 0; i < array.length; i++) {
            array[i] = null;
        }
        return array;
    }

    /** Whether the array is of the class Object[]. */
    private static boolean holdsAnything(Object[] array) {
        if (array.length == 0) {
            return false;
        }
        Object[] copy = array.clone();
        try {
            copy[0] = new Probe();
            return true;
        } catch (ArrayStoreException e) {
            return false;
        }
    }

    private static native Object[] newArrayOfTheSameClass(Object[] array, int length);
}
