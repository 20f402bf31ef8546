public class Main {
    private static void attempt(Account from, Account to, int amount) {
        try {
            Account.transfer(from, to, amount);
        } catch (Account.Refused refused) {
            System.err.println(refused.getMessage());
        }
    }

    public static void main(String[] arguments) {
        Account ann = new Account("ann", 1000);
        Account ben = new Account("ben", 50);
        attempt(ann, ben, 300);
        attempt(ann, ben, 200);
        attempt(ben, ann, 600);
        ann.night();
        ben.night();
        attempt(ben, ann, 390);
        ann.print();
        ben.print();
        ann.deposit(Account.FEES && Account.INTEREST ? 0 : 5);
        System.out.println("done");
    }
}
