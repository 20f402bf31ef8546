final class Options {
    static boolean EMPTY;
    static boolean WEIGHT;
    static boolean TWO_THIRDS_FULL;
    static boolean EXECUTIVE_FLOOR;
    static boolean OVERLOADED;
    static boolean VERBOSE;

    private Options() {
    }
}
