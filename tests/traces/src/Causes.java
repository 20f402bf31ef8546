/** Three causes, whose frames are partly the same. */
class Causes {
    static class Failed extends RuntimeException {
        Failed(String text, Throwable cause) {
            super(text, cause);
        }
    }

    static int rate(int days) {
        return 100 / days;
    }

    static int price(int days) {
        try {
            return rate(days) + 1;
        } catch (ArithmeticException e) {
            throw new IllegalArgumentException("days " + days, e);
        }
    }

    static int sum(int days) {
        try {
            return price(days) + price(days + 1);
        } catch (IllegalArgumentException e) {
            throw new Failed("no sum", e);
        }
    }

    static void bill() {
        try {
            System.out.println(sum(1));
            System.out.println(sum(0));
        } catch (Failed e) {
            throw new RuntimeException(e);
        }
    }

    public static void main(String[] words) {
        bill();
    }
}
