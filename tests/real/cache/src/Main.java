import java.util.AbstractMap;
import java.util.Enumeration;
import java.util.HashMap;
import java.util.Hashtable;
import java.util.LinkedHashMap;
import java.util.Map;
import java.util.Properties;
import java.util.Stack;
import java.util.Vector;
import java.util.function.BiFunction;
import java.util.function.Function;

/** A cache that drops its eldest entry, counts by merge, and the collections of the first releases. */
public class Main {
    static boolean SMALL;
    static boolean COUNTED;
    static boolean OLD;
    static boolean DEFAULTS;
    static boolean FLUSH;

    private static final class Cache extends LinkedHashMap<String, Integer> {
        private final int most;
        private int dropped;

        Cache(int most) {
            this.most = most;
        }

        @Override
        protected boolean removeEldestEntry(Map.Entry<String, Integer> eldest) {
            boolean full = size() > most;
            if (full) {
                dropped += eldest.getValue();
            }
            return full;
        }
    }

    private static final BiFunction<Integer, Integer, Integer> SUM = new BiFunction<Integer, Integer, Integer>() {
        @Override
        public Integer apply(Integer one, Integer other) {
            return one + other;
        }
    };

    private static void oldOnes() {
        Hashtable<String, Integer> table = new Hashtable<>();
        Vector<String> vector = new Vector<>(2);
        Stack<Integer> stack = new Stack<>();
        for (int i = 0; i < 9; i++) {
            table.put("key" + i * i, i);
            vector.addElement("e" + i);
            stack.push(i % 4);
        }
        vector.insertElementAt("in", 3);
        vector.removeElement("e5");
        System.out.println(table + " " + vector + " " + vector.capacity() + " " + stack.search(1) + " " + stack.peek());
        for (Enumeration<String> keys = table.keys(); keys.hasMoreElements();) {
            System.out.print(keys.nextElement() + ".");
        }
        System.out.println();
    }

    public static void main(String[] arguments) {
        Cache cache = new Cache(SMALL ? 3 : 5);
        String[] asked = {"a", "b", "c", "a", "d", "e", "b", "f", "g", "a"};
        Map<String, Integer> counts = new HashMap<>();
        int missed = 0;
        for (final String name : asked) {
            if (!cache.containsKey(name)) {
                missed++;
            }
            int value = cache.computeIfAbsent(name, new Function<String, Integer>() {
                @Override
                public Integer apply(String key) {
                    return key.charAt(0) - 'a' + 1;
                }
            });
            if (COUNTED) {
                counts.merge(name, value, SUM);
            } else {
                counts.put(name, counts.getOrDefault(name, 0) + 1);
            }
            if (FLUSH && name.equals("e")) {
                cache.clear();
            }
        }
        System.out.println(cache + " " + missed + " " + cache.dropped + " " + counts);
        counts.replaceAll(new BiFunction<String, Integer, Integer>() {
            @Override
            public Integer apply(String key, Integer value) {
                return value > 2 ? value * 10 : value;
            }
        });
        counts.values().remove(1);
        System.out.println(counts + " " + counts.entrySet().contains(new AbstractMap.SimpleEntry<>("a", 30)) + " " + cache.keySet());
        if (OLD) {
            oldOnes();
        }
        Properties before = new Properties();
        before.setProperty("colour", "red");
        Properties properties = DEFAULTS ? new Properties(before) : new Properties();
        properties.setProperty("size", "3");
        properties.setProperty("name", "cache");
        System.out.println(properties + " " + properties.getProperty("colour", "none") + " " + properties.getProperty("size") + " " + properties.stringPropertyNames().size());
        System.out.println(properties.getProperty("colour").length());
    }
}
