final class Options {
    static boolean PRIORITY;
    static boolean BOUNDED;
    static boolean DROP_OLDEST;
    static boolean RETRY;
    static boolean BATCH;
    static boolean STATISTICS;
    static boolean FAST;
    static boolean TRACE;
    static boolean EMPTY_START;
    static boolean STRICT;

    private Options() {
    }
}
