package shop;

import java.util.ArrayList;
import java.util.LinkedHashMap;
import java.util.List;
import java.util.Map;
import java.util.TreeMap;

/** A shop that prices one basket. Its settings come from the words of the call, properties, the environment, and flags. */
public final class Main {
    private Main() {
    }

    public static void main(String[] args) {
        var arguments = List.of(args);
        var basket = new ArrayList<>(List.of(new Item("tea", Kind.FOOD, 450), new Item("mug", Kind.HOUSE, 1200), new Item("tea", Kind.FOOD, 450)));
        if (arguments.contains("--with-book")) {
            basket.add(new Item("book", Kind.MEDIA, 2000));
        }
        var prices = new Prices(Rules.chosen());
        Map<Kind, Integer> sums = new LinkedHashMap<>();
        basket.forEach(item -> sums.merge(item.kind(), prices.of(item), Integer::sum));
        sums.forEach((kind, sum) -> System.out.println("%-6s %s".formatted(kind, money(sum))));
        int total = prices.total(sums.values());
        Delivery delivery = Delivery.of(total);
        System.out.println(delivery instanceof Delivery.Courier courier ? "courier by " + courier.hour() + ":00" : delivery.toString());
        if (arguments.contains("--receipt")) {
            System.out.print(receipt(basket, total));
        }
        System.out.println("total " + money(total + delivery.cost()));
    }

    static String money(int cents) {
        if (cents < 0) {
            throw new IllegalStateException("negative amount: " + cents);
        }
        return cents / 100 + "." + (cents % 100 < 10 ? "0" : "") + cents % 100;
    }

    private static String receipt(List<Item> basket, int total) {
        Map<String, Integer> counts = new TreeMap<>();
        basket.forEach(item -> counts.merge(item.name(), 1, Integer::sum));
        return """
            receipt %s
              of %s
            """.formatted(counts, money(total));
    }
}
