import java.util.Collections;
import java.util.Iterator;
import java.util.Map;
import java.util.NavigableMap;
import java.util.NavigableSet;
import java.util.SortedMap;
import java.util.TreeMap;
import java.util.TreeSet;
import java.util.function.BiFunction;

/** Sorted maps and sets: neighbours, ranges that write through, orders backwards. */
public class Main {
    static boolean DENSE;
    static boolean DOWN;
    static boolean CUT;
    static boolean MERGE;
    static boolean WRITE;

    private static void show(NavigableMap<Integer, String> map, int key) {
        System.out.println(key + ": " + map.lowerKey(key) + " " + map.floorEntry(key) + " " + map.ceilingKey(key) + " " + map.higherEntry(key));
    }

    public static void main(String[] arguments) {
        NavigableMap<Integer, String> map = new TreeMap<>();
        for (int i = 0; i < 40; i += DENSE ? 4 : 9) {
            map.put(i * 7 % 40, "v" + i);
        }
        if (DOWN) {
            map = map.descendingMap();
        }
        System.out.println(map + " " + map.firstKey() + " " + map.lastEntry());
        show(map, 20);
        show(map, 28);
        SortedMap<Integer, String> head = map.headMap(map.ceilingKey(21));
        System.out.println(head.size() + " " + head);
        if (CUT) {
            head.clear();
            map.pollLastEntry();
        }
        if (MERGE) {
            for (int key = 0; key < 40; key += 13) {
                map.merge(key, "new", new BiFunction<String, String, String>() {
                    @Override
                    public String apply(String old, String made) {
                        return old.equals("v8") ? null : old + made;
                    }
                });
            }
        }
        System.out.println(map.size() + " " + map.navigableKeySet().headSet(20, true) + " " + map.descendingKeySet());
        for (Iterator<Map.Entry<Integer, String>> it = map.entrySet().iterator(); it.hasNext();) {
            Map.Entry<Integer, String> entry = it.next();
            if (entry.getKey() % 3 == 0) {
                it.remove();
            } else {
                entry.setValue(entry.getKey() + entry.getValue());
            }
        }
        System.out.println(map.values() + " " + map.containsValue("5v15"));
        NavigableSet<String> words = new TreeSet<>(Collections.<String>reverseOrder());
        words.addAll(map.values());
        words.add("w");
        words.add("a");
        System.out.println(words + " " + words.first() + " " + words.higher("3") + " " + words.subSet("v", "2"));
        NavigableSet<String> tail = words.tailSet("3", false);
        tail.pollFirst();
        System.out.println(words.size() + " " + tail + " " + words.descendingSet());
        if (WRITE) {
            head.put(DOWN ? 1 : 39, "outside");
        }
        System.out.println(map.equals(new TreeMap<>(map)) + " " + map.hashCode());
    }
}
