import java.util.HashMap;
import java.util.Map;

public class Main {
    private static final Map<String, Account> ACCOUNTS = new HashMap<String, Account>();

    private static void attempt(String from, String to, int amount) {
        try {
            Account.transfer(ACCOUNTS.get(from), ACCOUNTS.get(to), amount);
        } catch (Account.Refused refused) {
            System.err.println(refused.getMessage());
        }
    }

    public static void main(String[] arguments) {
        ACCOUNTS.put("ann", new Account("ann", 1000));
        ACCOUNTS.put("ben", new Account("ben", 50));
        attempt("ann", "ben", 300);
        attempt("ann", "ben", 200);
        attempt("ben", "ann", 600);
        for (Account account : ACCOUNTS.values()) {
            account.night();
        }
        attempt("ben", "ann", 390);
        for (String name : new String[] {"ann", "ben"}) {
            ACCOUNTS.get(name).print();
        }
        ACCOUNTS.get("ann").deposit(Account.FEES && Account.INTEREST ? 0 : 5);
        System.out.println("done");
    }
}
