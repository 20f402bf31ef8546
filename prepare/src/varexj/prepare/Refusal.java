package varexj.prepare;

/** Why nothing is prepared: the words for the standard error, and the status. */
final class Refusal extends RuntimeException {
    static final int USAGE = 2;
    static final int UNREADABLE = 3;

    final int status;

    Refusal(int status, String message) {
        super(message);
        this.status = status;
    }
}
