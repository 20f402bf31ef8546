final class Options {
    static boolean SIMPLIFY;
    static boolean POSTFIX;
    static boolean VARIABLES;
    static boolean DIVISION;
    static boolean MODULO;
    static boolean LENIENT;

    private Options() {
    }
}
