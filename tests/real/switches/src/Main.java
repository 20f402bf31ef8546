/** Switches over patterns, enums and texts, as Java 17 has them under a flag. */
public class Main {
    static boolean TEXT;
    static boolean BIG;
    static boolean NONE;

    enum Size { SMALL, MEDIUM, LARGE }

    record Point(int x, int y) { }

    static String tell(Object o) {
        return switch (o) {
            case null -> "null";
            case String s && s.length() > 3 -> "long " + s;
            case String s -> "text " + s;
            case Integer i && i > 100 -> "big " + i;
            case Integer i -> "number " + i;
            case Size size -> "size " + size;
            case Point p -> "point " + p.x();
            case int[] numbers -> "numbers " + numbers.length;
            default -> "other";
        };
    }

    static int rank(Size size) {
        return switch (size) {
            case SMALL -> 1;
            case MEDIUM -> {
                int n = size.ordinal();
                yield n + 10;
            }
            case LARGE -> 100;
        };
    }

    static String length(String text) {
        return switch (text) {
            case "one" -> "1";
            case String s && s.length() > 3 -> "long";
            case String s -> s;
        };
    }

    static String count(Integer n) {
        return switch (n) {
            case 5 -> "five";
            case Integer i && i > 10 -> "many";
            case Integer i -> "some";
        };
    }

    static String unit(Character c) {
        return switch (c) {
            case 'c' -> "c";
            case Character u && u > 'x' -> "late";
            case Character u -> "unit";
        };
    }

    static String size(Size size) {
        return switch (size) {
            case SMALL -> "small";
            case Size s && s.ordinal() > 1 -> "above";
            case Size s -> "between";
        };
    }

    static int word(String text) {
        switch (text) {
            case "Aa":
            case "BB":
                return 1;
            case "C":
                return 2;
            default:
                return 3;
        }
    }

    public static void main(String[] args) {
        Object first = NONE ? null : TEXT ? (BIG ? "letters" : "abc") : (Object) (BIG ? 1000 : 5);
        System.out.println(tell(first));
        for (Object o : new Object[] {Size.LARGE, new Point(3, 4), new int[2], 'c', 5L}) {
            System.out.println(tell(o));
        }
        System.out.println(rank(BIG ? Size.LARGE : Size.MEDIUM) + rank(Size.SMALL));
        System.out.println(length(TEXT ? "one" : "four") + length("two") + count(BIG ? 50 : 5) + count(6) + unit('c') + unit('y') + unit('d'));
        System.out.println(size(BIG ? Size.LARGE : Size.SMALL) + size(Size.MEDIUM));
        System.out.println(word("Aa") + word("BB") + word(TEXT ? "C" : "D"));
        System.out.println(rank(NONE ? null : Size.SMALL));
    }
}
