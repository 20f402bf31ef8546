package java.util;

import java.util.function.Consumer;
import java.util.function.IntFunction;
import java.util.function.IntToLongFunction;
import java.util.function.IntUnaryOperator;
import java.util.function.UnaryOperator;
import varexj.lang.ObjectMembers;

/** What is done with arrays. Floats, streams and parallel forms are left out. */
public final class Arrays {
    /** How many elements are sorted by insertion before runs are merged. */
    private static final int RUN = 16;

    private Arrays() {
    }

    private static void checkRange(int length, int fromIndex, int toIndex) {
        if (fromIndex > toIndex) {
            throw new IllegalArgumentException("fromIndex(" + fromIndex + ") > toIndex(" + toIndex + ")");
        }
        if (fromIndex < 0) {
            throw new ArrayIndexOutOfBoundsException("Array index out of range: " + fromIndex);
        }
        if (toIndex > length) {
            throw new ArrayIndexOutOfBoundsException("Array index out of range: " + toIndex);
        }
    }

    /** How many elements a range has of which a copy is asked. */
    private static int lengthOf(int length, int from, int to) {
        int count = to - from;
        if (count < 0) {
            throw new IllegalArgumentException(from + " > " + to);
        }
        if (from < 0 || from > length) {
            throw new ArrayIndexOutOfBoundsException();
        }
        return count;
    }

    public static void sort(int[] a) {
        sortRange(a, 0, a.length);
    }

    public static void sort(int[] a, int fromIndex, int toIndex) {
        checkRange(a.length, fromIndex, toIndex);
        sortRange(a, fromIndex, toIndex);
    }

    private static void sortRange(int[] a, int from, int to) {
        for (int start = from; start < to; start += RUN) {
            int end = start + RUN < to ? start + RUN : to;
            for (int i = start + 1; i < end; i++) {
                int element = a[i];
                int at = i;
                while (at > start && a[at - 1] > element) {
                    at--;
                }
                if (at < i) {
                    System.arraycopy(a, at, a, at + 1, i - at);
                    a[at] = element;
                }
            }
        }
        if (to - from > RUN) {
            int[] room = new int[to - from];
            for (int width = RUN; width < to - from; width *= 2) {
                for (int start = from; start + width < to; start += 2 * width) {
                    merge(a, room, start, start + width, start + 2 * width < to ? start + 2 * width : to);
                }
            }
        }
    }

    private static void merge(int[] a, int[] room, int from, int middle, int to) {
        if (a[middle - 1] <= a[middle]) {
            return;
        }
        int count = middle - from;
        System.arraycopy(a, from, room, 0, count);
        int left = 0;
        int right = middle;
        int at = from;
        while (left < count && right < to) {
            if (room[left] <= a[right]) {
                a[at++] = room[left++];
            } else {
                a[at++] = a[right++];
            }
        }
        System.arraycopy(room, left, a, at, count - left);
    }

    public static int binarySearch(int[] a, int key) {
        return searchRange(a, 0, a.length, key);
    }

    public static int binarySearch(int[] a, int fromIndex, int toIndex, int key) {
        checkRange(a.length, fromIndex, toIndex);
        return searchRange(a, fromIndex, toIndex, key);
    }

    private static int searchRange(int[] a, int from, int to, int key) {
        int low = from;
        int high = to - 1;
        while (low <= high) {
            int middle = low + high >>> 1;
            if (a[middle] < key) {
                low = middle + 1;
            } else if (a[middle] > key) {
                high = middle - 1;
            } else {
                return middle;
            }
        }
        return -(low + 1);
    }

    public static void fill(int[] a, int val) {
        for (int i = 0; i < a.length; i++) {
            a[i] = val;
        }
    }

    public static void fill(int[] a, int fromIndex, int toIndex, int val) {
        checkRange(a.length, fromIndex, toIndex);
        for (int i = fromIndex; i < toIndex; i++) {
            a[i] = val;
        }
    }

    public static int[] copyOf(int[] original, int newLength) {
        int[] copy = new int[newLength];
        System.arraycopy(original, 0, copy, 0, original.length < newLength ? original.length : newLength);
        return copy;
    }

    public static int[] copyOfRange(int[] original, int from, int to) {
        int[] copy = new int[lengthOf(original.length, from, to)];
        System.arraycopy(original, from, copy, 0, original.length - from < copy.length ? original.length - from : copy.length);
        return copy;
    }

    public static boolean equals(int[] a, int[] a2) {
        if (a == a2) {
            return true;
        }
        if (a == null || a2 == null || a.length != a2.length) {
            return false;
        }
        for (int i = 0; i < a.length; i++) {
            if (a[i] != a2[i]) {
                return false;
            }
        }
        return true;
    }

    public static int hashCode(int[] a) {
        if (a == null) {
            return 0;
        }
        int hash = 1;
        for (int i = 0; i < a.length; i++) {
            hash = 31 * hash + a[i];
        }
        return hash;
    }

    public static String toString(int[] a) {
        if (a == null) {
            return "null";
        }
        StringBuilder text = new StringBuilder("[");
        for (int i = 0; i < a.length; i++) {
            if (i > 0) {
                text.append(", ");
            }
            text.append(a[i]);
        }
        return text.append(']').toString();
    }

    public static void sort(long[] a) {
        sortRange(a, 0, a.length);
    }

    public static void sort(long[] a, int fromIndex, int toIndex) {
        checkRange(a.length, fromIndex, toIndex);
        sortRange(a, fromIndex, toIndex);
    }

    private static void sortRange(long[] a, int from, int to) {
        for (int start = from; start < to; start += RUN) {
            int end = start + RUN < to ? start + RUN : to;
            for (int i = start + 1; i < end; i++) {
                long element = a[i];
                int at = i;
                while (at > start && a[at - 1] > element) {
                    at--;
                }
                if (at < i) {
                    System.arraycopy(a, at, a, at + 1, i - at);
                    a[at] = element;
                }
            }
        }
        if (to - from > RUN) {
            long[] room = new long[to - from];
            for (int width = RUN; width < to - from; width *= 2) {
                for (int start = from; start + width < to; start += 2 * width) {
                    merge(a, room, start, start + width, start + 2 * width < to ? start + 2 * width : to);
                }
            }
        }
    }

    private static void merge(long[] a, long[] room, int from, int middle, int to) {
        if (a[middle - 1] <= a[middle]) {
            return;
        }
        int count = middle - from;
        System.arraycopy(a, from, room, 0, count);
        int left = 0;
        int right = middle;
        int at = from;
        while (left < count && right < to) {
            if (room[left] <= a[right]) {
                a[at++] = room[left++];
            } else {
                a[at++] = a[right++];
            }
        }
        System.arraycopy(room, left, a, at, count - left);
    }

    public static int binarySearch(long[] a, long key) {
        return searchRange(a, 0, a.length, key);
    }

    public static int binarySearch(long[] a, int fromIndex, int toIndex, long key) {
        checkRange(a.length, fromIndex, toIndex);
        return searchRange(a, fromIndex, toIndex, key);
    }

    private static int searchRange(long[] a, int from, int to, long key) {
        int low = from;
        int high = to - 1;
        while (low <= high) {
            int middle = low + high >>> 1;
            if (a[middle] < key) {
                low = middle + 1;
            } else if (a[middle] > key) {
                high = middle - 1;
            } else {
                return middle;
            }
        }
        return -(low + 1);
    }

    public static void fill(long[] a, long val) {
        for (int i = 0; i < a.length; i++) {
            a[i] = val;
        }
    }

    public static void fill(long[] a, int fromIndex, int toIndex, long val) {
        checkRange(a.length, fromIndex, toIndex);
        for (int i = fromIndex; i < toIndex; i++) {
            a[i] = val;
        }
    }

    public static long[] copyOf(long[] original, int newLength) {
        long[] copy = new long[newLength];
        System.arraycopy(original, 0, copy, 0, original.length < newLength ? original.length : newLength);
        return copy;
    }

    public static long[] copyOfRange(long[] original, int from, int to) {
        long[] copy = new long[lengthOf(original.length, from, to)];
        System.arraycopy(original, from, copy, 0, original.length - from < copy.length ? original.length - from : copy.length);
        return copy;
    }

    public static boolean equals(long[] a, long[] a2) {
        if (a == a2) {
            return true;
        }
        if (a == null || a2 == null || a.length != a2.length) {
            return false;
        }
        for (int i = 0; i < a.length; i++) {
            if (a[i] != a2[i]) {
                return false;
            }
        }
        return true;
    }

    public static int hashCode(long[] a) {
        if (a == null) {
            return 0;
        }
        int hash = 1;
        for (int i = 0; i < a.length; i++) {
            hash = 31 * hash + (int) (a[i] ^ a[i] >>> 32);
        }
        return hash;
    }

    public static String toString(long[] a) {
        if (a == null) {
            return "null";
        }
        StringBuilder text = new StringBuilder("[");
        for (int i = 0; i < a.length; i++) {
            if (i > 0) {
                text.append(", ");
            }
            text.append(a[i]);
        }
        return text.append(']').toString();
    }

    public static void sort(short[] a) {
        sortRange(a, 0, a.length);
    }

    public static void sort(short[] a, int fromIndex, int toIndex) {
        checkRange(a.length, fromIndex, toIndex);
        sortRange(a, fromIndex, toIndex);
    }

    private static void sortRange(short[] a, int from, int to) {
        for (int start = from; start < to; start += RUN) {
            int end = start + RUN < to ? start + RUN : to;
            for (int i = start + 1; i < end; i++) {
                short element = a[i];
                int at = i;
                while (at > start && a[at - 1] > element) {
                    at--;
                }
                if (at < i) {
                    System.arraycopy(a, at, a, at + 1, i - at);
                    a[at] = element;
                }
            }
        }
        if (to - from > RUN) {
            short[] room = new short[to - from];
            for (int width = RUN; width < to - from; width *= 2) {
                for (int start = from; start + width < to; start += 2 * width) {
                    merge(a, room, start, start + width, start + 2 * width < to ? start + 2 * width : to);
                }
            }
        }
    }

    private static void merge(short[] a, short[] room, int from, int middle, int to) {
        if (a[middle - 1] <= a[middle]) {
            return;
        }
        int count = middle - from;
        System.arraycopy(a, from, room, 0, count);
        int left = 0;
        int right = middle;
        int at = from;
        while (left < count && right < to) {
            if (room[left] <= a[right]) {
                a[at++] = room[left++];
            } else {
                a[at++] = a[right++];
            }
        }
        System.arraycopy(room, left, a, at, count - left);
    }

    public static int binarySearch(short[] a, short key) {
        return searchRange(a, 0, a.length, key);
    }

    public static int binarySearch(short[] a, int fromIndex, int toIndex, short key) {
        checkRange(a.length, fromIndex, toIndex);
        return searchRange(a, fromIndex, toIndex, key);
    }

    private static int searchRange(short[] a, int from, int to, short key) {
        int low = from;
        int high = to - 1;
        while (low <= high) {
            int middle = low + high >>> 1;
            if (a[middle] < key) {
                low = middle + 1;
            } else if (a[middle] > key) {
                high = middle - 1;
            } else {
                return middle;
            }
        }
        return -(low + 1);
    }

    public static void fill(short[] a, short val) {
        for (int i = 0; i < a.length; i++) {
            a[i] = val;
        }
    }

    public static void fill(short[] a, int fromIndex, int toIndex, short val) {
        checkRange(a.length, fromIndex, toIndex);
        for (int i = fromIndex; i < toIndex; i++) {
            a[i] = val;
        }
    }

    public static short[] copyOf(short[] original, int newLength) {
        short[] copy = new short[newLength];
        System.arraycopy(original, 0, copy, 0, original.length < newLength ? original.length : newLength);
        return copy;
    }

    public static short[] copyOfRange(short[] original, int from, int to) {
        short[] copy = new short[lengthOf(original.length, from, to)];
        System.arraycopy(original, from, copy, 0, original.length - from < copy.length ? original.length - from : copy.length);
        return copy;
    }

    public static boolean equals(short[] a, short[] a2) {
        if (a == a2) {
            return true;
        }
        if (a == null || a2 == null || a.length != a2.length) {
            return false;
        }
        for (int i = 0; i < a.length; i++) {
            if (a[i] != a2[i]) {
                return false;
            }
        }
        return true;
    }

    public static int hashCode(short[] a) {
        if (a == null) {
            return 0;
        }
        int hash = 1;
        for (int i = 0; i < a.length; i++) {
            hash = 31 * hash + a[i];
        }
        return hash;
    }

    public static String toString(short[] a) {
        if (a == null) {
            return "null";
        }
        StringBuilder text = new StringBuilder("[");
        for (int i = 0; i < a.length; i++) {
            if (i > 0) {
                text.append(", ");
            }
            text.append(a[i]);
        }
        return text.append(']').toString();
    }

    public static void sort(char[] a) {
        sortRange(a, 0, a.length);
    }

    public static void sort(char[] a, int fromIndex, int toIndex) {
        checkRange(a.length, fromIndex, toIndex);
        sortRange(a, fromIndex, toIndex);
    }

    private static void sortRange(char[] a, int from, int to) {
        for (int start = from; start < to; start += RUN) {
            int end = start + RUN < to ? start + RUN : to;
            for (int i = start + 1; i < end; i++) {
                char element = a[i];
                int at = i;
                while (at > start && a[at - 1] > element) {
                    at--;
                }
                if (at < i) {
                    System.arraycopy(a, at, a, at + 1, i - at);
                    a[at] = element;
                }
            }
        }
        if (to - from > RUN) {
            char[] room = new char[to - from];
            for (int width = RUN; width < to - from; width *= 2) {
                for (int start = from; start + width < to; start += 2 * width) {
                    merge(a, room, start, start + width, start + 2 * width < to ? start + 2 * width : to);
                }
            }
        }
    }

    private static void merge(char[] a, char[] room, int from, int middle, int to) {
        if (a[middle - 1] <= a[middle]) {
            return;
        }
        int count = middle - from;
        System.arraycopy(a, from, room, 0, count);
        int left = 0;
        int right = middle;
        int at = from;
        while (left < count && right < to) {
            if (room[left] <= a[right]) {
                a[at++] = room[left++];
            } else {
                a[at++] = a[right++];
            }
        }
        System.arraycopy(room, left, a, at, count - left);
    }

    public static int binarySearch(char[] a, char key) {
        return searchRange(a, 0, a.length, key);
    }

    public static int binarySearch(char[] a, int fromIndex, int toIndex, char key) {
        checkRange(a.length, fromIndex, toIndex);
        return searchRange(a, fromIndex, toIndex, key);
    }

    private static int searchRange(char[] a, int from, int to, char key) {
        int low = from;
        int high = to - 1;
        while (low <= high) {
            int middle = low + high >>> 1;
            if (a[middle] < key) {
                low = middle + 1;
            } else if (a[middle] > key) {
                high = middle - 1;
            } else {
                return middle;
            }
        }
        return -(low + 1);
    }

    public static void fill(char[] a, char val) {
        for (int i = 0; i < a.length; i++) {
            a[i] = val;
        }
    }

    public static void fill(char[] a, int fromIndex, int toIndex, char val) {
        checkRange(a.length, fromIndex, toIndex);
        for (int i = fromIndex; i < toIndex; i++) {
            a[i] = val;
        }
    }

    public static char[] copyOf(char[] original, int newLength) {
        char[] copy = new char[newLength];
        System.arraycopy(original, 0, copy, 0, original.length < newLength ? original.length : newLength);
        return copy;
    }

    public static char[] copyOfRange(char[] original, int from, int to) {
        char[] copy = new char[lengthOf(original.length, from, to)];
        System.arraycopy(original, from, copy, 0, original.length - from < copy.length ? original.length - from : copy.length);
        return copy;
    }

    public static boolean equals(char[] a, char[] a2) {
        if (a == a2) {
            return true;
        }
        if (a == null || a2 == null || a.length != a2.length) {
            return false;
        }
        for (int i = 0; i < a.length; i++) {
            if (a[i] != a2[i]) {
                return false;
            }
        }
        return true;
    }

    public static int hashCode(char[] a) {
        if (a == null) {
            return 0;
        }
        int hash = 1;
        for (int i = 0; i < a.length; i++) {
            hash = 31 * hash + a[i];
        }
        return hash;
    }

    public static String toString(char[] a) {
        if (a == null) {
            return "null";
        }
        StringBuilder text = new StringBuilder("[");
        for (int i = 0; i < a.length; i++) {
            if (i > 0) {
                text.append(", ");
            }
            text.append(a[i]);
        }
        return text.append(']').toString();
    }

    public static void sort(byte[] a) {
        sortRange(a, 0, a.length);
    }

    public static void sort(byte[] a, int fromIndex, int toIndex) {
        checkRange(a.length, fromIndex, toIndex);
        sortRange(a, fromIndex, toIndex);
    }

    private static void sortRange(byte[] a, int from, int to) {
        for (int start = from; start < to; start += RUN) {
            int end = start + RUN < to ? start + RUN : to;
            for (int i = start + 1; i < end; i++) {
                byte element = a[i];
                int at = i;
                while (at > start && a[at - 1] > element) {
                    at--;
                }
                if (at < i) {
                    System.arraycopy(a, at, a, at + 1, i - at);
                    a[at] = element;
                }
            }
        }
        if (to - from > RUN) {
            byte[] room = new byte[to - from];
            for (int width = RUN; width < to - from; width *= 2) {
                for (int start = from; start + width < to; start += 2 * width) {
                    merge(a, room, start, start + width, start + 2 * width < to ? start + 2 * width : to);
                }
            }
        }
    }

    private static void merge(byte[] a, byte[] room, int from, int middle, int to) {
        if (a[middle - 1] <= a[middle]) {
            return;
        }
        int count = middle - from;
        System.arraycopy(a, from, room, 0, count);
        int left = 0;
        int right = middle;
        int at = from;
        while (left < count && right < to) {
            if (room[left] <= a[right]) {
                a[at++] = room[left++];
            } else {
                a[at++] = a[right++];
            }
        }
        System.arraycopy(room, left, a, at, count - left);
    }

    public static int binarySearch(byte[] a, byte key) {
        return searchRange(a, 0, a.length, key);
    }

    public static int binarySearch(byte[] a, int fromIndex, int toIndex, byte key) {
        checkRange(a.length, fromIndex, toIndex);
        return searchRange(a, fromIndex, toIndex, key);
    }

    private static int searchRange(byte[] a, int from, int to, byte key) {
        int low = from;
        int high = to - 1;
        while (low <= high) {
            int middle = low + high >>> 1;
            if (a[middle] < key) {
                low = middle + 1;
            } else if (a[middle] > key) {
                high = middle - 1;
            } else {
                return middle;
            }
        }
        return -(low + 1);
    }

    public static void fill(byte[] a, byte val) {
        for (int i = 0; i < a.length; i++) {
            a[i] = val;
        }
    }

    public static void fill(byte[] a, int fromIndex, int toIndex, byte val) {
        checkRange(a.length, fromIndex, toIndex);
        for (int i = fromIndex; i < toIndex; i++) {
            a[i] = val;
        }
    }

    public static byte[] copyOf(byte[] original, int newLength) {
        byte[] copy = new byte[newLength];
        System.arraycopy(original, 0, copy, 0, original.length < newLength ? original.length : newLength);
        return copy;
    }

    public static byte[] copyOfRange(byte[] original, int from, int to) {
        byte[] copy = new byte[lengthOf(original.length, from, to)];
        System.arraycopy(original, from, copy, 0, original.length - from < copy.length ? original.length - from : copy.length);
        return copy;
    }

    public static boolean equals(byte[] a, byte[] a2) {
        if (a == a2) {
            return true;
        }
        if (a == null || a2 == null || a.length != a2.length) {
            return false;
        }
        for (int i = 0; i < a.length; i++) {
            if (a[i] != a2[i]) {
                return false;
            }
        }
        return true;
    }

    public static int hashCode(byte[] a) {
        if (a == null) {
            return 0;
        }
        int hash = 1;
        for (int i = 0; i < a.length; i++) {
            hash = 31 * hash + a[i];
        }
        return hash;
    }

    public static String toString(byte[] a) {
        if (a == null) {
            return "null";
        }
        StringBuilder text = new StringBuilder("[");
        for (int i = 0; i < a.length; i++) {
            if (i > 0) {
                text.append(", ");
            }
            text.append(a[i]);
        }
        return text.append(']').toString();
    }

    public static void fill(boolean[] a, boolean val) {
        for (int i = 0; i < a.length; i++) {
            a[i] = val;
        }
    }

    public static void fill(boolean[] a, int fromIndex, int toIndex, boolean val) {
        checkRange(a.length, fromIndex, toIndex);
        for (int i = fromIndex; i < toIndex; i++) {
            a[i] = val;
        }
    }

    public static boolean[] copyOf(boolean[] original, int newLength) {
        boolean[] copy = new boolean[newLength];
        System.arraycopy(original, 0, copy, 0, original.length < newLength ? original.length : newLength);
        return copy;
    }

    public static boolean[] copyOfRange(boolean[] original, int from, int to) {
        boolean[] copy = new boolean[lengthOf(original.length, from, to)];
        System.arraycopy(original, from, copy, 0, original.length - from < copy.length ? original.length - from : copy.length);
        return copy;
    }

    public static boolean equals(boolean[] a, boolean[] a2) {
        if (a == a2) {
            return true;
        }
        if (a == null || a2 == null || a.length != a2.length) {
            return false;
        }
        for (int i = 0; i < a.length; i++) {
            if (a[i] != a2[i]) {
                return false;
            }
        }
        return true;
    }

    public static int hashCode(boolean[] a) {
        if (a == null) {
            return 0;
        }
        int hash = 1;
        for (int i = 0; i < a.length; i++) {
            hash = 31 * hash + (a[i] ? 1231 : 1237);
        }
        return hash;
    }

    public static String toString(boolean[] a) {
        if (a == null) {
            return "null";
        }
        StringBuilder text = new StringBuilder("[");
        for (int i = 0; i < a.length; i++) {
            if (i > 0) {
                text.append(", ");
            }
            text.append(a[i]);
        }
        return text.append(']').toString();
    }

    public static void sort(Object[] a) {
        sortRange(a, 0, a.length, Comparators.NATURAL);
    }

    public static void sort(Object[] a, int fromIndex, int toIndex) {
        checkRange(a.length, fromIndex, toIndex);
        sortRange(a, fromIndex, toIndex, Comparators.NATURAL);
    }

    @SuppressWarnings("unchecked")
    public static <T> void sort(T[] a, Comparator<? super T> c) {
        sortRange(a, 0, a.length, c == null ? Comparators.NATURAL : (Comparator<Object>) c);
    }

    @SuppressWarnings("unchecked")
    public static <T> void sort(T[] a, int fromIndex, int toIndex, Comparator<? super T> c) {
        checkRange(a.length, fromIndex, toIndex);
        sortRange(a, fromIndex, toIndex, c == null ? Comparators.NATURAL : (Comparator<Object>) c);
    }

    /** Sorts runs by insertion at a place found by halving, and merges them. */
    private static void sortRange(Object[] a, int from, int to, Comparator<Object> order) {
        for (int start = from; start < to; start += RUN) {
            int end = start + RUN < to ? start + RUN : to;
            for (int i = start + 1; i < end; i++) {
                Object element = a[i];
                if (order.compare(a[i - 1], element) > 0) {
                    int at = placeFor(a, start, i - 1, element, order);
                    System.arraycopy(a, at, a, at + 1, i - at);
                    a[at] = element;
                }
            }
        }
        if (to - from > RUN) {
            Object[] room = new Object[to - from];
            for (int width = RUN; width < to - from; width *= 2) {
                for (int start = from; start + width < to; start += 2 * width) {
                    merge(a, room, start, start + width, start + 2 * width < to ? start + 2 * width : to, order);
                }
            }
        }
    }

    /** The place behind all elements that aren't greater. */
    private static int placeFor(Object[] a, int from, int to, Object element, Comparator<Object> order) {
        int low = from;
        int high = to;
        while (low < high) {
            int middle = low + high >>> 1;
            if (order.compare(a[middle], element) > 0) {
                high = middle;
            } else {
                low = middle + 1;
            }
        }
        return low;
    }

    private static void merge(Object[] a, Object[] room, int from, int middle, int to, Comparator<Object> order) {
        if (order.compare(a[middle - 1], a[middle]) <= 0) {
            return;
        }
        int count = middle - from;
        System.arraycopy(a, from, room, 0, count);
        int left = 0;
        int right = middle;
        int at = from;
        while (left < count && right < to) {
            if (order.compare(room[left], a[right]) <= 0) {
                a[at++] = room[left++];
            } else {
                a[at++] = a[right++];
            }
        }
        System.arraycopy(room, left, a, at, count - left);
    }

    public static int binarySearch(Object[] a, Object key) {
        return searchRange(a, 0, a.length, key, Comparators.NATURAL);
    }

    public static int binarySearch(Object[] a, int fromIndex, int toIndex, Object key) {
        checkRange(a.length, fromIndex, toIndex);
        return searchRange(a, fromIndex, toIndex, key, Comparators.NATURAL);
    }

    @SuppressWarnings("unchecked")
    public static <T> int binarySearch(T[] a, T key, Comparator<? super T> c) {
        return searchRange(a, 0, a.length, key, c == null ? Comparators.NATURAL : (Comparator<Object>) c);
    }

    @SuppressWarnings("unchecked")
    public static <T> int binarySearch(T[] a, int fromIndex, int toIndex, T key, Comparator<? super T> c) {
        checkRange(a.length, fromIndex, toIndex);
        return searchRange(a, fromIndex, toIndex, key, c == null ? Comparators.NATURAL : (Comparator<Object>) c);
    }

    private static int searchRange(Object[] a, int from, int to, Object key, Comparator<Object> order) {
        int low = from;
        int high = to - 1;
        while (low <= high) {
            int middle = low + high >>> 1;
            int found = order.compare(a[middle], key);
            if (found < 0) {
                low = middle + 1;
            } else if (found > 0) {
                high = middle - 1;
            } else {
                return middle;
            }
        }
        return -(low + 1);
    }

    public static void fill(Object[] a, Object val) {
        for (int i = 0; i < a.length; i++) {
            a[i] = val;
        }
    }

    public static void fill(Object[] a, int fromIndex, int toIndex, Object val) {
        checkRange(a.length, fromIndex, toIndex);
        for (int i = fromIndex; i < toIndex; i++) {
            a[i] = val;
        }
    }

    public static <T> void setAll(T[] array, IntFunction<? extends T> generator) {
        if (generator == null) {
            throw new NullPointerException();
        }
        for (int i = 0; i < array.length; i++) {
            array[i] = generator.apply(i);
        }
    }

    public static void setAll(int[] array, IntUnaryOperator generator) {
        if (generator == null) {
            throw new NullPointerException();
        }
        for (int i = 0; i < array.length; i++) {
            array[i] = generator.applyAsInt(i);
        }
    }

    public static void setAll(long[] array, IntToLongFunction generator) {
        if (generator == null) {
            throw new NullPointerException();
        }
        for (int i = 0; i < array.length; i++) {
            array[i] = generator.applyAsLong(i);
        }
    }

    @SuppressWarnings("unchecked")
    public static <T> T[] copyOf(T[] original, int newLength) {
        if (newLength < 0) {
            throw new NegativeArraySizeException(String.valueOf(newLength));
        }
        Object[] copy = ArrayKinds.like(original, newLength);
        System.arraycopy(original, 0, copy, 0, original.length < newLength ? original.length : newLength);
        return (T[]) copy;
    }

    @SuppressWarnings("unchecked")
    public static <T> T[] copyOfRange(T[] original, int from, int to) {
        int count = lengthOf(original.length, from, to);
        Object[] copy = ArrayKinds.like(original, count);
        System.arraycopy(original, from, copy, 0, original.length - from < count ? original.length - from : count);
        return (T[]) copy;
    }

    public static boolean equals(Object[] a, Object[] a2) {
        if (a == a2) {
            return true;
        }
        if (a == null || a2 == null || a.length != a2.length) {
            return false;
        }
        for (int i = 0; i < a.length; i++) {
            if (!(a[i] == null ? a2[i] == null : a[i].equals(a2[i]))) {
                return false;
            }
        }
        return true;
    }

    public static boolean deepEquals(Object[] a1, Object[] a2) {
        if (a1 == a2) {
            return true;
        }
        if (a1 == null || a2 == null || a1.length != a2.length) {
            return false;
        }
        for (int i = 0; i < a1.length; i++) {
            if (a1[i] != a2[i] && (a1[i] == null || !deepEquals(a1[i], a2[i]))) {
                return false;
            }
        }
        return true;
    }

    /** Whether two objects that aren't null are equal, arrays by their elements. */
    static boolean deepEquals(Object one, Object other) {
        if (one instanceof Object[] && other instanceof Object[]) {
            return deepEquals((Object[]) one, (Object[]) other);
        }
        if (one instanceof int[] && other instanceof int[]) {
            return equals((int[]) one, (int[]) other);
        }
        if (one instanceof long[] && other instanceof long[]) {
            return equals((long[]) one, (long[]) other);
        }
        if (one instanceof short[] && other instanceof short[]) {
            return equals((short[]) one, (short[]) other);
        }
        if (one instanceof char[] && other instanceof char[]) {
            return equals((char[]) one, (char[]) other);
        }
        if (one instanceof byte[] && other instanceof byte[]) {
            return equals((byte[]) one, (byte[]) other);
        }
        if (one instanceof boolean[] && other instanceof boolean[]) {
            return equals((boolean[]) one, (boolean[]) other);
        }
        return one.equals(other);
    }

    public static int hashCode(Object[] a) {
        if (a == null) {
            return 0;
        }
        int hash = 1;
        for (int i = 0; i < a.length; i++) {
            hash = 31 * hash + (a[i] == null ? 0 : ObjectMembers.hashCode(a[i]));
        }
        return hash;
    }

    public static int deepHashCode(Object[] a) {
        if (a == null) {
            return 0;
        }
        int hash = 1;
        for (int i = 0; i < a.length; i++) {
            hash = 31 * hash + (a[i] == null ? 0 : deepHashOf(a[i]));
        }
        return hash;
    }

    private static int deepHashOf(Object element) {
        if (element instanceof Object[]) {
            return deepHashCode((Object[]) element);
        }
        if (element instanceof int[]) {
            return hashCode((int[]) element);
        }
        if (element instanceof long[]) {
            return hashCode((long[]) element);
        }
        if (element instanceof short[]) {
            return hashCode((short[]) element);
        }
        if (element instanceof char[]) {
            return hashCode((char[]) element);
        }
        if (element instanceof byte[]) {
            return hashCode((byte[]) element);
        }
        if (element instanceof boolean[]) {
            return hashCode((boolean[]) element);
        }
        return ObjectMembers.hashCode(element);
    }

    public static String toString(Object[] a) {
        if (a == null) {
            return "null";
        }
        StringBuilder text = new StringBuilder("[");
        for (int i = 0; i < a.length; i++) {
            if (i > 0) {
                text.append(", ");
            }
            text.append(a[i]);
        }
        return text.append(']').toString();
    }

    public static String deepToString(Object[] a) {
        if (a == null) {
            return "null";
        }
        StringBuilder text = new StringBuilder();
        appendDeeply(text, a, new ArrayList<Object[]>());
        return text.toString();
    }

    private static void appendDeeply(StringBuilder text, Object[] a, ArrayList<Object[]> around) {
        for (int i = 0; i < around.size(); i++) {
            if (around.get(i) == a) {
                text.append("[...]");
                return;
            }
        }
        around.add(a);
        text.append('[');
        for (int i = 0; i < a.length; i++) {
            if (i > 0) {
                text.append(", ");
            }
            if (a[i] instanceof Object[]) {
                appendDeeply(text, (Object[]) a[i], around);
            } else {
                text.append(textOf(a[i]));
            }
        }
        text.append(']');
        around.remove(around.size() - 1);
    }

    private static String textOf(Object element) {
        if (element instanceof int[]) {
            return toString((int[]) element);
        }
        if (element instanceof long[]) {
            return toString((long[]) element);
        }
        if (element instanceof short[]) {
            return toString((short[]) element);
        }
        if (element instanceof char[]) {
            return toString((char[]) element);
        }
        if (element instanceof byte[]) {
            return toString((byte[]) element);
        }
        if (element instanceof boolean[]) {
            return toString((boolean[]) element);
        }
        return String.valueOf(element);
    }

    @SafeVarargs
    public static <T> List<T> asList(T... a) {
        return new View<T>(a);
    }

    /** An array as a list. */
    private static final class View<E> extends AbstractList<E> implements RandomAccess, java.io.Serializable {
        private final E[] a;

        View(E[] array) {
            if (array == null) {
                throw new NullPointerException();
            }
            a = array;
        }

        public int size() {
            return a.length;
        }

        public Object[] toArray() {
            Object[] result = new Object[a.length];
            System.arraycopy(a, 0, result, 0, a.length);
            return result;
        }

        public <T> T[] toArray(T[] other) {
            T[] result = ArrayKinds.withRoom(other, a.length);
            System.arraycopy(a, 0, result, 0, a.length);
            if (result.length > a.length) {
                result[a.length] = null;
            }
            return result;
        }

        public E get(int index) {
            return a[index];
        }

        public E set(int index, E element) {
            E old = a[index];
            a[index] = element;
            return old;
        }

        public int indexOf(Object o) {
            for (int i = 0; i < a.length; i++) {
                if (o == null ? a[i] == null : o.equals(a[i])) {
                    return i;
                }
            }
            return -1;
        }

        public boolean contains(Object o) {
            return indexOf(o) >= 0;
        }

        public void forEach(Consumer<? super E> action) {
            if (action == null) {
                throw new NullPointerException();
            }
            for (int i = 0; i < a.length; i++) {
                action.accept(a[i]);
            }
        }

        public void replaceAll(UnaryOperator<E> operator) {
            if (operator == null) {
                throw new NullPointerException();
            }
            for (int i = 0; i < a.length; i++) {
                a[i] = operator.apply(a[i]);
            }
        }

        public void sort(Comparator<? super E> c) {
            Arrays.sort(a, c);
        }

        public Iterator<E> iterator() {
            return new ViewWalk<E>(a);
        }
    }

    private static final class ViewWalk<E> implements Iterator<E> {
        private final E[] a;
        private int cursor;

        ViewWalk(E[] a) {
            this.a = a;
        }

        public boolean hasNext() {
            return cursor < a.length;
        }

        public E next() {
            if (cursor >= a.length) {
                throw new NoSuchElementException();
            }
            E element = a[cursor];
            cursor++;
            return element;
        }

        public void remove() {
            throw new UnsupportedOperationException("remove");
        }
    }
}
