public class Ticket {
    static boolean STUDENT;
    static boolean GROUP;
    static boolean COUPON;
    static boolean RECEIPT;

    static int price() {
        int price = 12;
        if (STUDENT) {
            price = price / 2;
        }
        if (GROUP) {
            price = price / 2;
        }
        if (COUPON) {
            price = price - 3;
        }
        return price;
    }

    public static void main(String[] arguments) {
        System.out.println("rides: " + 36 / price());
        if (RECEIPT) {
            System.out.println("thank you");
        }
    }
}
