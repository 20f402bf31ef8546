package shop;

import java.util.ArrayList;
import java.util.List;
import java.util.function.IntUnaryOperator;

/** The rules that change a price, in the order in which they are applied. */
final class Rules {
    private Rules() {
    }

    static List<IntUnaryOperator> chosen() {
        List<IntUnaryOperator> rules = new ArrayList<>();
        if (Boolean.getBoolean("shop.sale")) {
            rules.add(cents -> cents * 8 / 10);
        }
        if (Flags.has("coupon")) {
            rules.add(cents -> cents - 300);
        }
        if (Flags.has("member")) {
            rules.add(Rules::forMembers);
        }
        if ("gold".equals(System.getProperty("shop.level", "none"))) {
            int less = 200;
            rules.add(cents -> cents - less);
        }
        return rules;
    }

    private static int forMembers(int cents) {
        return cents > 1000 ? cents - 100 : cents;
    }
}
