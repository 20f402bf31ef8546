import java.util.ArrayList;
import java.util.Collections;
import java.util.LinkedList;
import java.util.List;

public class Main {
    static boolean LINKED;
    static boolean SORTED;
    static boolean NUMBERS;
    static boolean EMPTY;

    private static <T> List<T> make() {
        if (LINKED) {
            return new LinkedList<T>();
        }
        return new ArrayList<T>();
    }

    private static <T extends Comparable<T>> List<T> sorted(List<T> list) {
        List<T> result = make();
        result.addAll(list);
        Collections.sort(result);
        return result;
    }

    private static <T extends Comparable<T>> void show(List<T> list) {
        StringBuilder text = new StringBuilder("[");
        for (T value : SORTED ? sorted(list) : list) {
            if (text.length() > 1) {
                text.append(' ');
            }
            text.append(value);
        }
        System.out.println(text.append(']').toString());
        System.out.println(Collections.max(list));
    }

    public static void main(String[] arguments) {
        if (NUMBERS) {
            List<Integer> list = make();
            for (int i = 0; i < (EMPTY ? 0 : 6); i++) {
                list.add(i * 173 % 31 - 7);
            }
            show(list);
        } else {
            List<String> list = make();
            for (int i = 0; i < (EMPTY ? 0 : 5); i++) {
                list.add("w" + (i * 7 % 5) + (char) ('a' + i));
            }
            show(list);
        }
    }
}
