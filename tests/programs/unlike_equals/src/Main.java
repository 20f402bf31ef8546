/** Objects of all kinds compared by equals with objects of other kinds: numbers with texts, texts with builders, and with null. */
public class Main {
    static boolean TEXT;
    static boolean BUILDER;
    static boolean NUMBER;
    static boolean SWAPPED;

    enum Direction {
        NORTH,
        SOUTH
    }

    private static Object chosen() {
        if (TEXT) {
            return NUMBER ? "0" : "";
        }
        if (BUILDER) {
            return new StringBuilder(NUMBER ? "1" : "");
        }
        return NUMBER ? Integer.valueOf(1000) : Boolean.FALSE;
    }

    private static Object[] kinds() {
        return new Object[] {
            "0", "", new StringBuilder("0"), Integer.valueOf(0), Integer.valueOf(1000), Boolean.FALSE, Boolean.TRUE,
            new Object(), new int[1], new String[] {"0"}, Direction.NORTH, new IllegalStateException("0"),
        };
    }

    private static String row(Object left, Object[] rights) {
        StringBuilder out = new StringBuilder();
        for (int i = 0; i < rights.length; i++) {
            boolean same = SWAPPED ? rights[i].equals(left) : left.equals(rights[i]);
            out.append(same ? '1' : '0');
        }
        return out.append(left.equals(null)).append(left.equals(left)).toString();
    }

    public static void main(String[] arguments) {
        Object[] kinds = kinds();
        for (int i = 0; i < kinds.length; i++) {
            System.out.println(row(kinds[i], kinds));
        }
        System.out.println(row(chosen(), kinds));
        System.out.println(Boolean.TRUE.equals("x"));
        System.out.println(Integer.valueOf(0).equals(new StringBuilder()));
        System.out.println(Integer.valueOf(-7000).equals(Integer.valueOf(-7000)));
    }
}
