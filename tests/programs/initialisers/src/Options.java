final class Options {
    static boolean EAGER;
    static boolean BROKEN;
    static boolean AGAIN;

    private Options() {
    }
}
