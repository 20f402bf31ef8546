package java.util;

/** Numbers that a seed decides, by the linear congruence of Knuth that the class library specifies. Streams and doubles are left out. */
public class Random implements java.io.Serializable {
    private static final long MULTIPLIER = 0x5DEECE66DL;
    private static final long MASK = (1L << 48) - 1;

    private long seed;

    /** Of a seed that the Java machine chooses anew each time: ends the run. */
    public Random() {
        this(chosenSeed());
    }

    public Random(long seed) {
        setSeed(seed);
    }

    private static native long chosenSeed();

    public void setSeed(long seed) {
        this.seed = (seed ^ MULTIPLIER) & MASK;
    }

    protected int next(int bits) {
        seed = seed * MULTIPLIER + 0xBL & MASK;
        return (int) (seed >>> 48 - bits);
    }

    public void nextBytes(byte[] bytes) {
        int at = 0;
        while (at < bytes.length) {
            int number = nextInt();
            for (int i = 0; i < 4 && at < bytes.length; i++) {
                bytes[at] = (byte) number;
                at++;
                number >>= 8;
            }
        }
    }

    public int nextInt() {
        return next(32);
    }

    public int nextInt(int bound) {
        if (bound <= 0) {
            throw new IllegalArgumentException("bound must be positive");
        }
        int bits = next(31);
        if ((bound & bound - 1) == 0) {
            return (int) (bound * (long) bits >> 31);
        }
        int value = bits % bound;
        while (bits - value + (bound - 1) < 0) {
            bits = next(31);
            value = bits % bound;
        }
        return value;
    }

    public int nextInt(int origin, int bound) {
        if (origin >= bound) {
            throw new IllegalArgumentException("bound must be greater than origin");
        }
        int number = nextInt();
        int count = bound - origin;
        if (count <= 0) {
            while (number < origin || number >= bound) {
                number = nextInt();
            }
            return number;
        }
        if ((count & count - 1) == 0) {
            return (number & count - 1) + origin;
        }
        int half = number >>> 1;
        while (half + (count - 1) - half % count < 0) {
            half = nextInt() >>> 1;
        }
        return half % count + origin;
    }

    public long nextLong() {
        return ((long) next(32) << 32) + next(32);
    }

    public boolean nextBoolean() {
        return next(1) != 0;
    }
}
