/** Arrays of arrays without parts: below a length of 0 the other lengths make nothing, however large they are. */
public class Main {
    static boolean INNER;
    static boolean WIDE;
    static boolean FULL;
    static boolean NEGATIVE;

    private static int large() {
        return WIDE ? 1 << 20 : 1 << 16;
    }

    private static int parts() {
        return FULL ? 2 : 0;
    }

    private static void print(Object[] grid) {
        StringBuilder line = new StringBuilder();
        line.append(grid.length);
        for (int i = 0; i < grid.length; i++) {
            line.append(' ').append(((Object[]) grid[i]).length);
        }
        System.out.println(line.toString());
    }

    public static void main(String[] arguments) {
        int n = large();
        print(INNER ? new int[1][0][n][n][n][n] : new int[0][n][n][n][n][n]);
        print(new long[0][n][n][n]);
        print(new String[INNER ? 3 : 0][0][n][n][n][n][n][n]);
        print(new boolean[0][65536][65536][65536][65536][65536]);
        Object[][][] some = new Object[parts()][parts() + 1][parts()];
        print(some);
        for (int i = 0; i < some.length; i++) {
            System.out.println(some[i].length + some[i][0].length + (some[i][0] == some[0][1] ? 1 : 0));
        }
        int last = NEGATIVE ? -1 : n;
        try {
            print(new short[0][n][n][n][last]);
        } catch (NegativeArraySizeException e) {
            System.out.println("negative");
        }
        print(new char[parts()][0][n][last]);
    }
}
