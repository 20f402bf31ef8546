import java.util.ArrayDeque;
import java.util.ArrayList;
import java.util.Arrays;
import java.util.Collections;
import java.util.ConcurrentModificationException;
import java.util.Deque;
import java.util.HashMap;
import java.util.Iterator;
import java.util.LinkedHashMap;
import java.util.LinkedList;
import java.util.List;
import java.util.Map;
import java.util.PriorityQueue;
import java.util.Set;
import java.util.TreeMap;
import java.util.TreeSet;

/** Collections under options, with lambdas. */
public class Main {
    static boolean MORE;
    static boolean SORT;
    static boolean DROP;

    public static void main(String[] args) {
        List<Integer> numbers = new ArrayList<>(List.of(5, 3, 8));
        if (MORE) {
            numbers.addAll(Arrays.asList(1, 9, 4));
        }
        if (SORT) {
            Collections.sort(numbers);
        }
        if (DROP) {
            numbers.removeIf(n -> n % 2 == 0);
        }
        System.out.println(numbers + " " + numbers.indexOf(8) + numbers.contains(3));
        Map<String, List<Integer>> groups = new HashMap<>();
        for (int n : numbers) {
            groups.computeIfAbsent(n < 5 ? "low" : "high", key -> new ArrayList<>()).add(n);
        }
        System.out.println(groups);
        for (Map.Entry<String, List<Integer>> each : new TreeMap<>(groups).entrySet()) {
            System.out.println(each.getKey() + "=" + each.getValue().size());
        }
        Map<String, Integer> order = new LinkedHashMap<>();
        order.put("z", 1);
        order.put("a", 2);
        order.merge("z", 10, Integer::sum);
        order.putIfAbsent("q", 3);
        order.forEach((key, value) -> System.out.println(key + value));
        Deque<String> queue = new ArrayDeque<>();
        queue.push("first");
        queue.addLast("last");
        System.out.println(queue.pop() + queue.size());
        PriorityQueue<Integer> heap = new PriorityQueue<>(numbers);
        StringBuilder taken = new StringBuilder();
        while (!heap.isEmpty()) {
            taken.append(heap.poll()).append(',');
        }
        System.out.println(taken);
        Set<String> sorted = new TreeSet<>(Collections.reverseOrder());
        Collections.addAll(sorted, "x", "y", "w");
        System.out.println(sorted);
        Iterator<Integer> walk = numbers.iterator();
        if (walk.hasNext() && walk.next() > 0) {
            walk.remove();
        }
        try {
            for (Integer n : numbers) {
                numbers.add(n);
            }
        } catch (ConcurrentModificationException e) {
            System.out.println("changed " + numbers.size());
        }
        System.out.println(new LinkedList<>(numbers).equals(numbers) + " " + numbers.hashCode());
        try {
            Collections.unmodifiableList(numbers).add(1);
        } catch (UnsupportedOperationException e) {
            System.out.println("fixed");
        }
        System.out.println(numbers.get(DROP ? 9 : 0));
    }
}
