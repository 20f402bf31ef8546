final class Options {
    static boolean EXPRESS;
    static boolean DISCOUNT;
    static boolean CANCEL;
    static boolean GIFT;
    static boolean SORTED;
    static boolean STRICT;

    private Options() {
    }
}
