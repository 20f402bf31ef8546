/** Whole numbers of all widths: shifts, narrowing, overflow, division of negative numbers, a checksum, a generator. */
public class Main {
    static boolean WIDE;
    static boolean NEGATIVE;
    static boolean CHECKED;
    static boolean SIGNED_SHIFT;

    private static int checksum(String text) {
        int crc = -1;
        for (int i = 0; i < text.length(); i++) {
            crc ^= text.charAt(i);
            for (int bit = 0; bit < 8; bit++) {
                crc = (crc & 1) != 0 ? crc >>> 1 ^ 0xEDB88320 : SIGNED_SHIFT ? crc >> 1 : crc >>> 1;
            }
        }
        return ~crc;
    }

    private static String hex(long value, int digits) {
        StringBuilder out = new StringBuilder();
        for (int i = digits - 1; i >= 0; i--) {
            int digit = (int) (value >>> 4 * i) & 15;
            out.append((char) (digit < 10 ? '0' + digit : 'a' + digit - 10));
        }
        return out.toString();
    }

    private static int product(int a, int b) {
        long wide = (long) a * b;
        if (CHECKED && wide != (int) wide) {
            throw new ArithmeticException("product of " + a + " and " + b);
        }
        return (int) wide;
    }

    private static int ones(long value) {
        int count = 0;
        for (long rest = value; rest != 0; rest &= rest - 1) {
            count++;
        }
        return count;
    }

    private static long state = 42;

    private static int next(int bits) {
        state = state * 0x5DEECE66DL + 0xBL & (1L << 48) - 1;
        return (int) (state >>> 48 - bits);
    }

    public static void main(String[] arguments) {
        System.out.println(hex(checksum("product line"), 8));
        int a = NEGATIVE ? -17 : 17;
        System.out.println(a / 5 + " " + a % 5 + " " + (a >> 2) + " " + (a >>> 28) + " " + (a << 30));
        System.out.println((byte) (a * 100) + " " + (short) (a * 10000) + " " + (int) (char) a);
        System.out.println(Integer.MIN_VALUE / (NEGATIVE ? -1 : 1) + " " + Math.abs(Integer.MIN_VALUE));
        long big = WIDE ? 0x123456789abcdefL : 0x7fffffffL;
        System.out.println(hex(big, 16) + " " + ones(big) + " " + (big << 33 >> 40) + " " + (int) big);
        System.out.println(big % 1000 + " " + -big / 7 + " " + (big > Integer.MAX_VALUE));
        int sum = 0;
        for (int i = 0; i < 10; i++) {
            sum = sum * 31 + next(WIDE ? 31 : 8);
        }
        System.out.println(sum);
        try {
            System.out.println(product(65536, a) + " " + product(70000, 70000));
        } catch (ArithmeticException e) {
            System.out.println(e.getMessage());
        }
        System.out.println(a % (CHECKED && NEGATIVE && WIDE ? 0 : 3));
    }
}
