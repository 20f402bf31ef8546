package java.util;

/**
 * A set of numbers from 0 on. Each bit is a place of an array, so that bits under options don't multiply; the length of the array is 64 times as many as
 * the Java machine has words.
 */
public class BitSet implements Cloneable, java.io.Serializable {
    private static final int WORD = 64;

    private boolean[] bits;
    /** Whether a length was asked for: then a copy keeps it. */
    private boolean sized;

    public BitSet() {
        bits = new boolean[WORD];
    }

    public BitSet(int nbits) {
        if (nbits < 0) {
            throw new NegativeArraySizeException("nbits < 0: " + nbits);
        }
        bits = new boolean[wholeWords(nbits)];
        sized = true;
    }

    private static int wholeWords(int count) {
        return (count + WORD - 1 >> 6) * WORD;
    }

    /** Makes room for so many bits, as the Java machine does. */
    private void reserve(int count) {
        if (count > bits.length) {
            int twice = 2 * bits.length;
            int wanted = wholeWords(count);
            boolean[] more = new boolean[twice > wanted ? twice : wanted];
            System.arraycopy(bits, 0, more, 0, bits.length);
            bits = more;
            sized = false;
        }
    }

    private static void wantIndex(int index, String name) {
        if (index < 0) {
            throw new IndexOutOfBoundsException(name + " < 0: " + index);
        }
    }

    private static void wantRange(int fromIndex, int toIndex) {
        wantIndex(fromIndex, "fromIndex");
        wantIndex(toIndex, "toIndex");
        if (fromIndex > toIndex) {
            throw new IndexOutOfBoundsException("fromIndex: " + fromIndex + " > toIndex: " + toIndex);
        }
    }

    public static BitSet valueOf(long[] longs) {
        int words = longs.length;
        while (words > 0 && longs[words - 1] == 0) {
            words--;
        }
        BitSet set = new BitSet();
        set.bits = new boolean[words * WORD];
        for (int i = 0; i < set.bits.length; i++) {
            set.bits[i] = (longs[i >> 6] >>> i & 1) != 0;
        }
        return set;
    }

    public static BitSet valueOf(byte[] bytes) {
        int count = bytes.length;
        while (count > 0 && bytes[count - 1] == 0) {
            count--;
        }
        BitSet set = new BitSet();
        set.bits = new boolean[wholeWords(8 * count)];
        for (int i = 0; i < 8 * count; i++) {
            set.bits[i] = (bytes[i >> 3] >>> (i & 7) & 1) != 0;
        }
        return set;
    }

    /** The word at a place. */
    private long word(int at) {
        long word = 0;
        for (int i = WORD - 1; i >= 0; i--) {
            word = word << 1 | (bits[at * WORD + i] ? 1 : 0);
        }
        return word;
    }

    public long[] toLongArray() {
        long[] words = new long[wholeWords(length()) / WORD];
        for (int i = 0; i < words.length; i++) {
            words[i] = word(i);
        }
        return words;
    }

    public byte[] toByteArray() {
        byte[] bytes = new byte[(length() + 7) / 8];
        for (int i = 0; i < bytes.length; i++) {
            bytes[i] = (byte) (word(i >> 3) >>> 8 * (i & 7));
        }
        return bytes;
    }

    public void flip(int bitIndex) {
        wantIndex(bitIndex, "bitIndex");
        reserve(bitIndex + 1);
        bits[bitIndex] = !bits[bitIndex];
    }

    public void flip(int fromIndex, int toIndex) {
        wantRange(fromIndex, toIndex);
        if (fromIndex < toIndex) {
            reserve(toIndex);
        }
        for (int i = fromIndex; i < toIndex; i++) {
            bits[i] = !bits[i];
        }
    }

    public void set(int bitIndex) {
        wantIndex(bitIndex, "bitIndex");
        reserve(bitIndex + 1);
        bits[bitIndex] = true;
    }

    public void set(int bitIndex, boolean value) {
        if (value) {
            set(bitIndex);
        } else {
            clear(bitIndex);
        }
    }

    public void set(int fromIndex, int toIndex) {
        wantRange(fromIndex, toIndex);
        if (fromIndex < toIndex) {
            reserve(toIndex);
        }
        for (int i = fromIndex; i < toIndex; i++) {
            bits[i] = true;
        }
    }

    public void set(int fromIndex, int toIndex, boolean value) {
        if (value) {
            set(fromIndex, toIndex);
        } else {
            clear(fromIndex, toIndex);
        }
    }

    public void clear(int bitIndex) {
        wantIndex(bitIndex, "bitIndex");
        if (bitIndex < bits.length) {
            bits[bitIndex] = false;
        }
    }

    public void clear(int fromIndex, int toIndex) {
        wantRange(fromIndex, toIndex);
        int end = toIndex < bits.length ? toIndex : bits.length;
        for (int i = fromIndex; i < end; i++) {
            bits[i] = false;
        }
    }

    public void clear() {
        clear(0, bits.length);
    }

    public boolean get(int bitIndex) {
        wantIndex(bitIndex, "bitIndex");
        return bitIndex < bits.length && bits[bitIndex];
    }

    public BitSet get(int fromIndex, int toIndex) {
        wantRange(fromIndex, toIndex);
        int length = length();
        if (length <= fromIndex || fromIndex == toIndex) {
            return new BitSet(0);
        }
        int count = (toIndex < length ? toIndex : length) - fromIndex;
        BitSet part = new BitSet(count);
        System.arraycopy(bits, fromIndex, part.bits, 0, count);
        return part;
    }

    public int nextSetBit(int fromIndex) {
        wantIndex(fromIndex, "fromIndex");
        for (int i = fromIndex; i < bits.length; i++) {
            if (bits[i]) {
                return i;
            }
        }
        return -1;
    }

    public int nextClearBit(int fromIndex) {
        wantIndex(fromIndex, "fromIndex");
        int at = fromIndex;
        while (at < bits.length && bits[at]) {
            at++;
        }
        return at;
    }

    private static boolean wantBefore(int fromIndex) {
        if (fromIndex < -1) {
            throw new IndexOutOfBoundsException("fromIndex < -1: " + fromIndex);
        }
        return fromIndex >= 0;
    }

    public int previousSetBit(int fromIndex) {
        wantBefore(fromIndex);
        for (int i = fromIndex < bits.length ? fromIndex : bits.length - 1; i >= 0; i--) {
            if (bits[i]) {
                return i;
            }
        }
        return -1;
    }

    public int previousClearBit(int fromIndex) {
        wantBefore(fromIndex);
        int at = fromIndex;
        while (at >= 0 && at < bits.length && bits[at]) {
            at--;
        }
        return at;
    }

    public int length() {
        int at = bits.length;
        while (at > 0 && !bits[at - 1]) {
            at--;
        }
        return at;
    }

    public boolean isEmpty() {
        return length() == 0;
    }

    public boolean intersects(BitSet set) {
        int count = bits.length < set.bits.length ? bits.length : set.bits.length;
        for (int i = 0; i < count; i++) {
            if (bits[i] && set.bits[i]) {
                return true;
            }
        }
        return false;
    }

    public int cardinality() {
        int count = 0;
        for (int i = 0; i < bits.length; i++) {
            if (bits[i]) {
                count++;
            }
        }
        return count;
    }

    public void and(BitSet set) {
        for (int i = 0; i < bits.length; i++) {
            if (bits[i]) {
                bits[i] = i < set.bits.length && set.bits[i];
            }
        }
    }

    public void or(BitSet set) {
        int length = set.length();
        reserve(length);
        for (int i = 0; i < length; i++) {
            if (set.bits[i]) {
                bits[i] = true;
            }
        }
    }

    public void xor(BitSet set) {
        int length = set.length();
        reserve(length);
        for (int i = 0; i < length; i++) {
            if (set.bits[i]) {
                bits[i] = !bits[i];
            }
        }
    }

    public void andNot(BitSet set) {
        int count = bits.length < set.bits.length ? bits.length : set.bits.length;
        for (int i = 0; i < count; i++) {
            if (set.bits[i]) {
                bits[i] = false;
            }
        }
    }

    public int hashCode() {
        long hash = 1234;
        for (int i = bits.length / WORD - 1; i >= 0; i--) {
            hash ^= word(i) * (i + 1);
        }
        return (int) (hash >> 32 ^ hash);
    }

    public int size() {
        return bits.length;
    }

    public boolean equals(Object obj) {
        if (!(obj instanceof BitSet)) {
            return false;
        }
        boolean[] one = bits;
        boolean[] other = ((BitSet) obj).bits;
        int count = one.length > other.length ? one.length : other.length;
        for (int i = 0; i < count; i++) {
            if ((i < one.length && one[i]) != (i < other.length && other[i])) {
                return false;
            }
        }
        return true;
    }

    /** A set of its own with the same bits; of this class, also where the set is of a class below. */
    public Object clone() {
        if (!sized) {
            shrink();
        }
        BitSet copy = new BitSet();
        copy.bits = bits.clone();
        copy.sized = sized;
        return copy;
    }

    private void shrink() {
        int wanted = wholeWords(length());
        if (wanted != bits.length) {
            boolean[] fewer = new boolean[wanted];
            System.arraycopy(bits, 0, fewer, 0, wanted);
            bits = fewer;
        }
    }

    public String toString() {
        StringBuilder text = new StringBuilder("{");
        boolean first = true;
        for (int i = 0; i < bits.length; i++) {
            if (bits[i]) {
                if (!first) {
                    text.append(", ");
                }
                first = false;
                text.append(i);
            }
        }
        return text.append('}').toString();
    }
}
