import java.util.ArrayDeque;
import java.util.ArrayList;
import java.util.Arrays;
import java.util.Collections;
import java.util.ConcurrentModificationException;
import java.util.EmptyStackException;
import java.util.HashMap;
import java.util.Iterator;
import java.util.LinkedList;
import java.util.List;
import java.util.ListIterator;
import java.util.Map;
import java.util.NoSuchElementException;
import java.util.PriorityQueue;
import java.util.Stack;
import java.util.TreeMap;
import java.util.Vector;

/** What collections throw, and when: each fault is caught and named, but for the last one. */
public class Main {
    static boolean IN_LOOP;
    static boolean EMPTY;
    static boolean FIXED;
    static boolean NULLS;
    static boolean LAST;

    private static List<String> letters() {
        List<String> list = new ArrayList<>(Arrays.asList("a", "b", "c", "d"));
        if (EMPTY) {
            list.clear();
        }
        return list;
    }

    private static void changedInLoop() {
        List<String> list = letters();
        int seen = 0;
        try {
            for (String letter : list) {
                seen++;
                if (letter.equals(IN_LOOP ? "b" : "c")) {
                    list.remove(letter);
                }
            }
            System.out.println("saw " + seen + " of " + list);
        } catch (ConcurrentModificationException e) {
            System.out.println("changed after " + seen);
        }
        Map<Integer, String> map = new HashMap<>();
        for (int i = 0; i < 5; i++) {
            map.put(i, "x" + i);
        }
        try {
            for (Integer key : map.keySet()) {
                if (key == (IN_LOOP ? 2 : 4)) {
                    map.remove(key);
                }
            }
            System.out.println(map);
        } catch (ConcurrentModificationException e) {
            System.out.println("map changed");
        }
    }

    private static void parts() {
        List<String> list = letters();
        try {
            List<String> part = list.subList(1, 3);
            if (IN_LOOP) {
                list.add("e");
            }
            part.set(0, "B");
            System.out.println(part + " of " + list);
        } catch (IndexOutOfBoundsException e) {
            System.out.println("no such part");
        } catch (ConcurrentModificationException e) {
            System.out.println("part of a changed list");
        }
        ListIterator<String> it = list.listIterator();
        try {
            it.set("z");
        } catch (IllegalStateException e) {
            System.out.println("nothing to set");
        }
    }

    private static void ends() {
        Stack<Integer> stack = new Stack<>();
        LinkedList<Integer> linked = new LinkedList<>();
        if (!EMPTY) {
            stack.push(3);
            linked.add(4);
        }
        try {
            System.out.println(stack.pop() + linked.getFirst());
        } catch (EmptyStackException e) {
            System.out.println("empty stack");
        }
        try {
            System.out.println(linked.removeLast() + " " + linked.iterator().next());
        } catch (NoSuchElementException e) {
            System.out.println("no element");
        }
        try {
            System.out.println(new Vector<>(letters()).elementAt(3));
        } catch (ArrayIndexOutOfBoundsException e) {
            System.out.println("no fourth");
        }
    }

    private static void fixed() {
        List<String> list = FIXED ? Collections.unmodifiableList(letters()) : Arrays.asList("q", "r");
        try {
            list.set(0, "s");
            System.out.println(list);
            list.add("t");
        } catch (UnsupportedOperationException e) {
            System.out.println("stays " + list);
        }
        try {
            System.out.println(Collections.emptyList().remove("x") + " " + Collections.singleton("x").remove(FIXED ? "x" : "y"));
        } catch (UnsupportedOperationException e) {
            System.out.println("singleton");
        }
    }

    private static void nulls() {
        try {
            Map<String, Integer> map = NULLS ? new TreeMap<String, Integer>() : new HashMap<String, Integer>();
            map.put("a", null);
            map.put(null, 1);
            System.out.println(map + " " + map.get("a") + " " + map.containsKey("a"));
        } catch (NullPointerException e) {
            System.out.println("null key");
        }
        try {
            ArrayDeque<String> deque = new ArrayDeque<>(letters());
            deque.add(NULLS ? null : "n");
            System.out.println(deque.peekLast());
        } catch (NullPointerException e) {
            System.out.println("null in a deque");
        }
    }

    @SuppressWarnings({"unchecked", "rawtypes"})
    public static void main(String[] arguments) {
        changedInLoop();
        parts();
        ends();
        fixed();
        nulls();
        if (LAST) {
            List raw = new ArrayList(letters());
            raw.add(7);
            PriorityQueue queue = new PriorityQueue(raw);
            System.out.println(queue);
        }
        Iterator<String> it = letters().iterator();
        System.out.println(it.next());
        it.remove();
        it.remove();
    }
}
