import java.util.ArrayDeque;
import java.util.ArrayList;
import java.util.Collections;
import java.util.HashMap;
import java.util.HashSet;
import java.util.LinkedHashSet;
import java.util.List;
import java.util.Map;
import java.util.Queue;
import java.util.Set;
import java.util.TreeMap;
import java.util.TreeSet;

/** A graph in maps of sets: breadth first, components, an order without cycles. */
public class Main {
    static boolean BRIDGE;
    static boolean TUNNEL;
    static boolean ONE_WAY;
    static boolean FERRY;
    static boolean RING;

    private static final Map<String, Set<String>> NEXT = new HashMap<>();

    private static void road(String from, String to) {
        Set<String> there = NEXT.get(from);
        if (there == null) {
            there = new LinkedHashSet<>();
            NEXT.put(from, there);
        }
        there.add(to);
        if (!NEXT.containsKey(to)) {
            NEXT.put(to, new LinkedHashSet<String>());
        }
        if (!ONE_WAY) {
            NEXT.get(to).add(from);
        }
    }

    private static Map<String, Integer> distances(String start) {
        Map<String, Integer> found = new TreeMap<>();
        Queue<String> queue = new ArrayDeque<>();
        found.put(start, 0);
        queue.add(start);
        while (!queue.isEmpty()) {
            String at = queue.poll();
            for (String next : NEXT.get(at)) {
                if (!found.containsKey(next)) {
                    found.put(next, found.get(at) + 1);
                    queue.add(next);
                }
            }
        }
        return found;
    }

    private static List<Set<String>> groups() {
        List<Set<String>> groups = new ArrayList<>();
        Set<String> open = new TreeSet<>(NEXT.keySet());
        while (!open.isEmpty()) {
            Set<String> group = new TreeSet<>(distances(open.iterator().next()).keySet());
            group.retainAll(open);
            open.removeAll(group);
            groups.add(group);
        }
        return groups;
    }

    /** Places such that each comes before those to which roads lead; fails where roads lead round. */
    private static List<String> ordered() {
        Map<String, Integer> coming = new HashMap<>();
        for (Set<String> there : NEXT.values()) {
            for (String to : there) {
                Integer count = coming.get(to);
                coming.put(to, count == null ? 1 : count + 1);
            }
        }
        Set<String> free = new TreeSet<>(NEXT.keySet());
        free.removeAll(coming.keySet());
        List<String> result = new ArrayList<>();
        while (!free.isEmpty()) {
            String at = ((TreeSet<String>) free).pollFirst();
            result.add(at);
            for (String to : NEXT.get(at)) {
                int left = coming.get(to) - 1;
                coming.put(to, left);
                if (left == 0) {
                    free.add(to);
                }
            }
        }
        if (result.size() < NEXT.size()) {
            throw new IllegalStateException("round: " + (NEXT.size() - result.size()));
        }
        return result;
    }

    public static void main(String[] arguments) {
        road("north", "mill");
        road("mill", "inn");
        road("inn", "port");
        road("isle", "light");
        if (BRIDGE) {
            road("mill", "east");
            road("east", "fair");
        }
        if (TUNNEL) {
            road("north", "port");
        }
        if (FERRY) {
            road("port", "isle");
        }
        if (RING) {
            road("port", "north");
        }
        System.out.println(NEXT);
        System.out.println(distances("north"));
        System.out.println(groups());
        Set<String> both = new HashSet<>(NEXT.get("mill"));
        both.addAll(NEXT.get("inn"));
        System.out.println(both.size() + " " + Collections.disjoint(both, NEXT.get("isle")));
        System.out.println(ordered());
    }
}
