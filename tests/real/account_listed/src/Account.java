import java.util.ArrayList;
import java.util.List;
import java.util.ListIterator;

class Account {
    static boolean OVERDRAFT;
    static boolean INTEREST;
    static boolean DAILY_LIMIT;
    static boolean LOG;
    static boolean FEES;

    private static final int LIMIT = -500;
    private static final int MOST_A_DAY = 400;

    private final String owner;
    private long cents;
    private int withdrawn;
    private final List<Entry> done = new ArrayList<Entry>();

    /** What was done. */
    private final class Entry {
        final String what;
        final long balance = cents;

        Entry(String what) {
            this.what = what;
        }
    }

    static class Refused extends RuntimeException {
        Refused(String reason) {
            super(reason);
        }
    }

    Account(String owner, long cents) {
        this.owner = owner;
        this.cents = cents;
    }

    private void note(String what) {
        if (LOG) {
            done.add(new Entry(what));
        }
    }

    void deposit(int amount) {
        if (amount <= 0) {
            throw new IllegalArgumentException("amount " + amount);
        }
        cents += amount;
        note("in " + amount);
    }

    void withdraw(int amount) {
        int fee = FEES ? Math.max(1, amount / 100) : 0;
        if (DAILY_LIMIT && withdrawn + amount > MOST_A_DAY) {
            throw new Refused("limit of the day");
        }
        long left = cents - amount - fee;
        if (left < (OVERDRAFT ? LIMIT : 0)) {
            throw new Refused(owner + " lacks " + -left);
        }
        withdrawn += amount;
        cents = left;
        note("out " + amount);
    }

    void night() {
        withdrawn = 0;
        if (INTEREST) {
            long more = cents * (cents < 0 ? 15 : 2) / 100;
            cents += more;
            note("interest " + more);
        }
    }

    static void transfer(Account from, Account to, int amount) {
        from.withdraw(amount);
        to.deposit(amount);
    }

    void print() {
        System.out.println(owner + " has " + cents);
        for (ListIterator<Entry> it = done.listIterator(done.size()); it.hasPrevious();) {
            Entry entry = it.previous();
            System.out.println("  " + entry.what + " -> " + entry.balance);
        }
    }
}
