/** Exceptions with constructors of their own, and one that fails inside of another one's constructor. */
class Constructors {
    static class Base extends Exception {
        Base(String text) {
            super("base "
                + text);
        }
    }

    static class Sold extends Base {
        final int rides;

        Sold(int rides) {
            super(text(rides));
            this.rides = rides;
        }

        static String text(int rides) {
            return "sold " + rides;
        }
    }

    static class Broken extends RuntimeException {
        Broken(int[] cells) {
            super("broken");
            cells[0] = 1;
        }
    }

    static Sold sold(int rides) {
        return new Sold(
            rides
            + 1);
    }

    static void sell(int rides) throws Sold {
        if (rides > 2) {
            Sold sold = sold(rides);
            throw sold;
        }
    }

    public static void main(String[] words) throws Exception {
        try {
            throw new Broken(new int[1]);
        } catch (Broken e) {
            System.out.println(e.getMessage());
        }
        sell(1);
        sell(3);
    }
}
