/** Numbers, units and truths as objects: which are one object, how they compare, what texts they come from. */
public class Main {
    static boolean WIDE;
    static boolean HEX;
    static boolean SIGNED;
    static boolean LETTERS;
    static boolean BROKEN;
    static boolean NULLS;

    static String same(Object left, Object right) {
        return (left == right ? "one" : "two") + (left.equals(right) ? " equal" : " unlike");
    }

    static Long step(Long from) {
        return WIDE ? from + 1000 : from + 1;
    }

    static void identities() {
        Long a = step(100L);
        Long b = step(100L);
        System.out.println("long " + a + " " + same(a, b) + " " + a.hashCode());
        Short s = (short) (WIDE ? 300 : 30);
        Short t = (short) (WIDE ? 300 : 30);
        System.out.println("short " + same(s, t) + " " + s.compareTo((short) 31));
        Byte x = (byte) (WIDE ? 200 : 20);
        Byte y = (byte) (WIDE ? 200 : 20);
        System.out.println("byte " + same(x, y) + " " + x + " " + Byte.toUnsignedInt(x));
        Character c = LETTERS ? 'q' : '\u03c9';
        Character d = LETTERS ? 'q' : '\u03c9';
        System.out.println("char " + same(c, d) + " " + c + " " + c.hashCode());
        Integer i = WIDE ? 128 : 127;
        Integer j = WIDE ? 128 : 127;
        System.out.println("int " + same(i, j));
        System.out.println(same(Long.valueOf(5), Integer.valueOf(5)));
    }

    static void parse(String text) {
        try {
            long number = HEX ? Long.parseLong(text, 16) : Long.parseLong(text);
            System.out.println(text + " is " + number + ", " + Long.toHexString(number) + ", " + Long.toString(number, 36) + ", " + Long.bitCount(number));
        } catch (NumberFormatException e) {
            System.out.println(text + " is none" + (HEX ? "" : ": " + e.getMessage()));
        }
    }

    static void texts() {
        parse(SIGNED ? "-12" : "12");
        parse("7f");
        parse(BROKEN ? "" : "9000000000");
        parse(BROKEN ? "12 " : "+5");
        try {
            System.out.println(Short.parseShort(BROKEN ? "40000" : "4000") + Byte.parseByte(SIGNED ? "-100" : "100"));
        } catch (NumberFormatException e) {
            System.out.println("too large");
        }
        System.out.println(Long.decode(HEX ? "0x10" : SIGNED ? "-010" : "10"));
    }

    static void arithmetic() {
        Long sum = 0L;
        for (Integer at = 0; at < 5; at++) {
            sum += WIDE ? at * 1_000_000_000L : at;
        }
        Character grade = 'a';
        grade++;
        Byte small = 1;
        small = (byte) (small << 7);
        System.out.println(sum + " " + grade + " " + small + " " + Long.signum(-sum) + " " + Long.compare(sum, 10L) + " " + sum.equals(10));
        System.out.println(Long.numberOfTrailingZeros(sum) + " " + Long.highestOneBit(sum) + " " + Long.reverse(sum) + " " + Long.rotateLeft(sum, 60));
        System.out.println(Long.divideUnsigned(-1L, 10L) + " " + Long.toUnsignedString(SIGNED ? -1L : 1L) + " " + Long.MAX_VALUE + " " + Long.MIN_VALUE);
        Number[] numbers = {sum, small, (short) 7, 3};
        long all = 0;
        for (Number number : numbers) {
            all = all * 31 + number.longValue() + number.intValue();
        }
        System.out.println(all);
    }

    static void units() {
        String text = LETTERS ? "aZ9_ \t" : "\u00e9\u03a9\u0664\u00a0\u2003\u01c5";
        for (char unit : text.toCharArray()) {
            StringBuilder said = new StringBuilder();
            said.append((int) unit).append(Character.isLetter(unit) ? " letter" : "").append(Character.isDigit(unit) ? " digit" : "");
            said.append(Character.isWhitespace(unit) ? " white" : "").append(Character.isSpaceChar(unit) ? " space" : "");
            said.append(Character.isUpperCase(unit) ? " upper" : "").append(Character.isLowerCase(unit) ? " lower" : "").append(Character.isTitleCase(unit) ? " title" : "");
            said.append(Character.isJavaIdentifierPart(unit) ? " name" : "").append(' ').append(Character.toUpperCase(unit)).append(Character.toLowerCase(unit));
            said.append(' ').append(Character.getNumericValue(unit)).append(' ').append(Character.digit(unit, HEX ? 16 : 10)).append(' ').append(Character.getType(unit));
            System.out.println(said);
        }
        System.out.println(Character.forDigit(11, HEX ? 16 : 10) == 'b');
        System.out.println(new String(Character.toChars(WIDE ? 0x1F600 : 0x263A)));
    }

    static void absent() {
        Long nothing = NULLS ? null : step(1L);
        try {
            long number = nothing;
            System.out.println("there: " + number);
        } catch (NullPointerException e) {
            System.out.println("absent");
        }
        Character unit = NULLS ? null : 'x';
        switch (unit) {
            case 'x':
                System.out.println("x");
                break;
            default:
                System.out.println("another");
        }
    }

    public static void main(String[] args) {
        identities();
        texts();
        arithmetic();
        units();
        absent();
    }
}
