/** Exceptions that are caught and thrown again, and one that is thrown long after it was made. */
class Rethrown {
    static RuntimeException made;

    static RuntimeException make(String text) {
        return new IllegalStateException(
            text
            + text.length());
    }

    static void first() {
        made = make("late");
    }

    static void again() {
        try {
            throw made;
        } catch (IllegalStateException e) {
            System.out.println(e.getMessage());
            throw e;
        }
    }

    static void pass() {
        try {
            again();
        } catch (RuntimeException e) {
            RuntimeException other = make("other");
            if (other == made) {
                throw other;
            }
            throw e;
        }
    }

    public static void main(String[] words) {
        first();
        pass();
    }
}
