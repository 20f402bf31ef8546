/** An exception without a message, and null that is thrown. */
class NoMessage {
    static RuntimeException none(boolean some) {
        return some ? new UnsupportedOperationException() : null;
    }

    public static void main(String[] words) {
        try {
            throw none(true);
        } catch (UnsupportedOperationException e) {
            System.out.println("caught");
        }
        throw none(false);
    }
}
