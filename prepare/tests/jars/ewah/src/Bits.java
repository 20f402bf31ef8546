import com.googlecode.javaewah.EWAHCompressedBitmap;
import com.googlecode.javaewah.IntIterator;

/** Sets of numbers as compressed bitmaps. */
public class Bits {
    private static final boolean WIDE = Boolean.getBoolean("bits.wide");
    private static final boolean NEGATE = Boolean.getBoolean("bits.negate");

    static boolean isShifted() {
        return System.getenv("BITS_SHIFT") != null;
    }

    static EWAHCompressedBitmap multiples(int of, int to) {
        EWAHCompressedBitmap map = new EWAHCompressedBitmap();
        for (int n = 0; n < to; n += of) {
            map.set(n);
        }
        return map;
    }

    public static void main(String[] args) throws Exception {
        String how = System.getProperty("bits.how", "and");
        EWAHCompressedBitmap left = multiples(3, WIDE ? 700 : 130);
        EWAHCompressedBitmap right = EWAHCompressedBitmap.bitmapOf(0, 3, 6, 64, 65, 66, 129, 400);
        if (NEGATE) {
            left.not();
        }
        EWAHCompressedBitmap both;
        switch (how) {
            case "or":
                both = left.or(right);
                break;
            case "xor":
                both = left.xor(right);
                break;
            default:
                both = left.and(right);
        }
        if (isShifted()) {
            both = both.shift(5);
        }
        boolean list = false, stats = false, clone = false;
        for (String word : args) {
            list |= word.equals("--list");
            stats |= word.equals("--stats");
            clone |= word.equals("--clone");
        }
        System.out.println(both.cardinality() + " " + both.sizeInBits() + " " + both.getFirstSetBit());
        if (list) {
            System.out.println(both);
            StringBuilder some = new StringBuilder();
            for (IntIterator it = both.intIterator(); it.hasNext() && some.length() < 30; ) {
                some.append(it.next()).append(' ');
            }
            System.out.println(some);
        }
        if (clone) {
            EWAHCompressedBitmap copy = (EWAHCompressedBitmap) both.clone();
            copy.set(copy.sizeInBits() + 3);
            System.out.println(copy.equals(both) + " " + copy.cardinality() + " " + copy.hashCode());
        }
        if (stats) {
            System.out.println(both.toDebugString());
        }
    }
}
