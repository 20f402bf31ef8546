final class Options {
    static boolean SHOP;
    static boolean LONG_WEEKEND;
    static boolean SIGNS;

    private Options() {
    }
}
