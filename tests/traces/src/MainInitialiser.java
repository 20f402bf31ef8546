/** The initialiser of the main class fails. */
class MainInitialiser {
    static final int[] CELLS = fill(new int[3]);

    static int[] fill(int[] cells) {
        if (cells.length == 3) {
            throw new IllegalStateException("three");
        }
        return cells;
    }

    public static void main(String[] words) {
        System.out.println(CELLS.length);
    }
}
