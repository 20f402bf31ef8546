/** What a constructor of an exception raises is shown with the constructor's frame. */
class BrokenConstructor {
    static class Broken extends NullPointerException {
        Broken(int[] cells) {
            super("broken");
            cells[2] = 1;
        }
    }

    public static void main(String[] words) {
        throw new Broken(new int[1]);
    }
}
