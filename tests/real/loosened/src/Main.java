import java.util.List;
import java.util.Map;
import java.util.Queue;
import java.util.concurrent.ConcurrentHashMap;
import java.util.concurrent.ConcurrentLinkedQueue;
import java.util.concurrent.ConcurrentMap;
import java.util.concurrent.ConcurrentSkipListMap;
import java.util.concurrent.CopyOnWriteArrayList;

/** What `--loose` changes, used so that nobody sees a difference: clocks, new boxes, collections for several threads. */
public class Main {
    static boolean MANY;
    static boolean LATE;

    public static void main(String[] args) {
        long start = System.nanoTime();
        long begun = System.currentTimeMillis();
        ConcurrentMap<String, Integer> counts = new ConcurrentHashMap<>();
        counts.putIfAbsent("one", MANY ? 10 : 1);
        counts.merge("one", 5, Integer::sum);
        System.out.println(counts);
        Map<String, Integer> sorted = new ConcurrentSkipListMap<>(Map.of("b", 2, "a", 1));
        Queue<Integer> queue = new ConcurrentLinkedQueue<>(sorted.values());
        List<String> names = new CopyOnWriteArrayList<>();
        names.add(queue.poll() + "st");
        System.out.println(sorted + " " + queue + names);
        int count = MANY ? 500 : 5;
        Integer boxed = new Integer(count);
        Boolean late = new Boolean(LATE);
        Integer length = new Integer(new StringBuilder("four").length());
        System.out.println(boxed + " " + boxed.equals(count) + " " + late + length);
        System.out.println((System.nanoTime() - start >= 0) + " " + (System.currentTimeMillis() >= begun));
        if (LATE) {
            throw new IllegalStateException("late");
        }
    }
}
