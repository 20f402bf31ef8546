import java.util.ArrayDeque;
import java.util.Comparator;
import java.util.Deque;
import java.util.Iterator;
import java.util.LinkedList;
import java.util.ListIterator;
import java.util.NoSuchElementException;
import java.util.PriorityQueue;
import java.util.Queue;

/** Tasks through queues: a heap, a deque at both ends, a linked list that is changed as it is walked. */
public class Main {
    static boolean URGENT;
    static boolean LATE;
    static boolean REPEAT;
    static boolean STACK;
    static boolean DROP;

    private static final class Task {
        final String name;
        final int weight;

        Task(String name, int weight) {
            this.name = name;
            this.weight = weight;
        }

        @Override
        public String toString() {
            return name + weight;
        }
    }

    private static final Comparator<Task> BY_WEIGHT = new Comparator<Task>() {
        @Override
        public int compare(Task one, Task other) {
            return Integer.compare(one.weight, other.weight);
        }
    };

    private static Queue<Task> ready() {
        Queue<Task> queue = new PriorityQueue<>(8, BY_WEIGHT);
        for (int i = 0; i < 7; i++) {
            queue.add(new Task("t" + i, i * 5 % 7));
        }
        if (URGENT) {
            queue.offer(new Task("now", -1));
        }
        if (LATE) {
            queue.add(new Task("then", 4));
        }
        return queue;
    }

    private static Deque<Task> waiting(Queue<Task> ready) {
        Deque<Task> deque = new ArrayDeque<>();
        while (ready.size() > 2) {
            Task task = ready.remove();
            if (STACK) {
                deque.push(task);
            } else {
                deque.addLast(task);
            }
        }
        return deque;
    }

    public static void main(String[] arguments) {
        Queue<Task> ready = ready();
        System.out.println(ready + " " + ready.peek());
        Deque<Task> waiting = waiting(ready);
        System.out.println(waiting + " then " + ready);
        LinkedList<String> log = new LinkedList<>();
        for (int turn = 0; !waiting.isEmpty(); turn++) {
            Task task = turn % 2 == 0 ? waiting.pollFirst() : waiting.pollLast();
            log.add(task.name);
            if (REPEAT && task.weight == 2 && turn < 3) {
                waiting.offerFirst(new Task(task.name + "'", 1));
            }
        }
        System.out.println(log);
        for (ListIterator<String> it = log.listIterator(); it.hasNext();) {
            String name = it.next();
            if (name.endsWith("3")) {
                it.remove();
            } else if (name.startsWith("t1")) {
                it.add("after " + name);
            } else if (name.length() > 3) {
                it.set("long");
            }
        }
        System.out.println(log + " " + log.indexOf("after t1") + " " + log.getLast());
        for (Iterator<String> it = log.descendingIterator(); it.hasNext();) {
            System.out.print(it.next() + ";");
        }
        System.out.println();
        if (DROP) {
            log.clear();
        }
        try {
            System.out.println(log.removeFirst() + " " + log.pollLast() + " " + log.element());
        } catch (NoSuchElementException e) {
            System.out.println("nothing left");
            ready.clear();
        }
        System.out.println(ready.remove());
    }
}
