/** Exceptions through blocks that have to be done in any case. */
public class Main {
    static boolean FAIL_EARLY;
    static boolean FAIL_LATE;
    static boolean RECOVER;
    static boolean STRICT;

    static class Failure extends Exception {
        private final int code;

        Failure(String message, int code) {
            super(message);
            this.code = code;
        }
    }

    private static final StringBuilder LOG = new StringBuilder();

    private static void step(String name, boolean fails) throws Failure {
        LOG.append(name);
        if (fails) {
            throw new Failure(name + " failed", name.length());
        }
        LOG.append(' ');
    }

    private static int work(int level) throws Failure {
        try {
            step("open", FAIL_EARLY && level == 2);
            try {
                if (level > 0) {
                    return work(level - 1) + 1;
                }
                step("write", FAIL_LATE);
                return 10;
            } finally {
                LOG.append("flush").append(level).append(' ');
            }
        } catch (Failure failure) {
            if (!RECOVER || level != 1) {
                throw failure;
            }
            LOG.append('(').append(failure.getMessage()).append(')');
            return -1;
        } finally {
            LOG.append("close").append(level).append(' ');
        }
    }

    @SuppressWarnings("finally")
    private static int overridden() {
        try {
            return 1 / (STRICT ? 0 : 1);
        } catch (ArithmeticException e) {
            throw new IllegalStateException("wrapped", e);
        } finally {
            if (!RECOVER) {
                return 3;
            }
        }
    }

    public static void main(String[] arguments) {
        try {
            System.out.println(work(3));
        } catch (Failure failure) {
            System.err.println(failure.getMessage() + " " + failure.code);
        } finally {
            System.out.println(LOG.toString());
        }
        try {
            System.out.println(overridden());
        } catch (IllegalStateException e) {
            System.out.println(e.toString());
            System.out.println(e.getCause().getMessage());
            if (FAIL_LATE) {
                throw e;
            }
        }
        int[] cells = new int[3];
        int i = 0;
        try {
            while (true) {
                cells[i] = i++ + (i > 2 && STRICT ? cells[5] : 0);
            }
        } catch (ArrayIndexOutOfBoundsException e) {
            System.out.println("end at " + i);
        }
    }
}
