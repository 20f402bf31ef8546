final class Options {
    static boolean ROUND;
    static boolean FLAT;
    static boolean RARE;
    static boolean NAMED;
    static boolean MANY;

    private Options() {
    }
}
