/** What a customer of the mail program may choose. */
final class Options {
    static boolean SIGN;
    static boolean ENCRYPT;
    static boolean ZIP;
    static boolean FORWARD;
    static boolean RESPOND;
    static boolean BOOK;
    static boolean LOG;
    static boolean FILTER;

    private Options() {
    }
}
