/** Compiled without the name of its source. */
class Main {
    static boolean A;

    public static void main(String[] words) {
        System.exit(Part.of(6, A ? 2 : 0));
    }
}
