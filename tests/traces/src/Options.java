/** The option, on which nothing depends. */
class Options {
    static boolean A;
}
