import java.util.ArrayList;
import java.util.Arrays;
import java.util.Collections;
import java.util.Comparator;
import java.util.HashMap;
import java.util.HashSet;
import java.util.Iterator;
import java.util.LinkedHashMap;
import java.util.List;
import java.util.Map;
import java.util.Set;

/** Orders of a shop: lists in maps, iterators that remove, orders of one's own. */
public class Main {
    private static final List<Order> orders = new ArrayList<>();

    private static void take() {
        orders.add(new Order("kim", 1).with("pen", 120).with("ink", 450));
        orders.add(new Order("lea", 2).with("map", 990));
        orders.add(new Order("kim", 3).with("cup", 700).with("jar", 300).with("tea", 260));
        orders.add(new Order("mo", 4).with("hat", 1990).with("bag", 2500).with("tie", 800));
        if (Options.EXPRESS) {
            orders.add(0, new Order("zed", 5).with("box", 100));
        }
        if (Options.GIFT) {
            for (Order order : orders) {
                order.with("card", 0);
            }
        }
    }

    private static void cancel() {
        for (Iterator<Order> it = orders.iterator(); it.hasNext();) {
            if (it.next().total() < 600) {
                it.remove();
            }
        }
    }

    private static Map<String, List<Order>> byCustomer() {
        Map<String, List<Order>> result = new HashMap<>();
        for (Order order : orders) {
            List<Order> theirs = result.get(order.customer);
            if (theirs == null) {
                theirs = new ArrayList<>();
                result.put(order.customer, theirs);
            }
            theirs.add(order);
        }
        return result;
    }

    private static Map<String, Integer> counts() {
        Map<String, Integer> counts = new LinkedHashMap<>();
        for (Order order : orders) {
            for (String item : order.items()) {
                Integer count = counts.get(item);
                counts.put(item, count == null ? 1 : count + 1);
            }
        }
        return counts;
    }

    public static void main(String[] arguments) {
        take();
        if (Options.CANCEL) {
            cancel();
        }
        if (Options.SORTED) {
            Collections.sort(orders, Collections.reverseOrder(new Comparator<Order>() {
                @Override
                public int compare(Order one, Order other) {
                    return one.items().size() == other.items().size() ? one.compareTo(other) : one.items().size() - other.items().size();
                }
            }));
        }
        System.out.println(orders);
        for (Map.Entry<String, List<Order>> entry : byCustomer().entrySet()) {
            System.out.println(entry.getKey() + ": " + entry.getValue().size() + " " + Collections.max(entry.getValue()));
        }
        System.out.println(counts());
        Set<Order> set = new HashSet<>(orders);
        System.out.println(set.contains(new Order("kim", 3)) + " " + set.containsAll(orders.subList(1, 2)) + " " + orders.indexOf(new Order("mo", 4)));
        Order[] array = orders.toArray(new Order[orders.size()]);
        Arrays.sort(array);
        System.out.println(array[0].number + " " + array[array.length - 1].number);
        if (Options.STRICT) {
            orders.get(0).items().add("bribe");
        }
        System.out.println("done");
    }
}
