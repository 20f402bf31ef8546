/** A ticket for which a price was forgotten. */
class Ticket {
    static boolean PRICED;

    static int rides(int money, int price) {
        return money / price;
    }

    static int sell(int money) {
        try {
            return rides(money,
                    PRICED ? 2 : 0);
        } catch (ArithmeticException failed) {
            throw new Sold("no price, "
                    + money, failed);
        } finally {
            System.out.println("sold");
        }
    }

    public static void main(String[] words) {
        System.out.println(sell(10));
    }

    static class Sold extends RuntimeException {
        Sold(String message, Throwable cause) {
            super(message, cause);
        }
    }
}
