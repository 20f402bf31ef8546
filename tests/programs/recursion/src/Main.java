/** Recursion: towers, partitions, permutations, a search that goes back, and one call too many. */
public class Main {
    static boolean TALL;
    static boolean COUNT_ONLY;
    static boolean DEEP;
    static boolean EIGHT;

    private int moves;
    private final StringBuilder text = new StringBuilder();

    private void tower(int height, char from, char to, char over) {
        if (height == 0) {
            return;
        }
        tower(height - 1, from, over, to);
        moves++;
        if (!COUNT_ONLY) {
            text.append(from).append(to).append(' ');
        }
        tower(height - 1, over, to, from);
    }

    private static int partitions(int n, int largest) {
        if (n == 0) {
            return 1;
        }
        int sum = 0;
        for (int part = Math.min(n, largest); part > 0; part--) {
            sum += partitions(n - part, part);
        }
        return sum;
    }

    private static boolean isFree(int[] columns, int row, int column) {
        for (int other = 0; other < row; other++) {
            int far = Math.abs(columns[other] - column);
            if (far == 0 || far == row - other) {
                return false;
            }
        }
        return true;
    }

    private static int queens(int[] columns, int row) {
        if (row == columns.length) {
            return 1;
        }
        int found = 0;
        for (int column = 0; column < columns.length; column++) {
            if (isFree(columns, row, column)) {
                columns[row] = column;
                found += queens(columns, row + 1);
            }
        }
        return found;
    }

    private static boolean isEven(int n) {
        return n == 0 || isOdd(n - 1);
    }

    private static boolean isOdd(int n) {
        return n != 0 && isEven(n - 1);
    }

    private static int depth(int n) {
        return depth(n + 1) + 1;
    }

    public static void main(String[] arguments) {
        Main main = new Main();
        main.tower(TALL ? 5 : 3, 'a', 'c', 'b');
        System.out.println(main.moves + " " + main.text);
        System.out.println(partitions(TALL ? 12 : 8, 5));
        System.out.println(queens(new int[EIGHT ? 6 : 5], 0));
        System.out.println(isEven(41) + " " + isOdd(41));
        if (DEEP) {
            try {
                System.out.println(depth(0));
            } catch (StackOverflowError e) {
                System.out.println("too deep");
            }
        }
    }
}
