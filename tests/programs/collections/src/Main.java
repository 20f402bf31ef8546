public class Main {
    static boolean LINKED;
    static boolean SORTED;
    static boolean NUMBERS;
    static boolean EMPTY;

    private static <T extends Comparable<T>> void show(List<T> list) {
        StringBuilder text = new StringBuilder("[");
        for (T value : SORTED ? list.sorted() : list) {
            if (text.length() > 1) {
                text.append(' ');
            }
            text.append(value);
        }
        System.out.println(text.append(']').toString());
        System.out.println(list.largest());
    }

    public static void main(String[] arguments) {
        if (NUMBERS) {
            List<Integer> list = List.make();
            for (int i = 0; i < (EMPTY ? 0 : 6); i++) {
                list.add(i * 173 % 31 - 7);
            }
            show(list);
        } else {
            List<String> list = List.make();
            for (int i = 0; i < (EMPTY ? 0 : 5); i++) {
                list.add("w" + (i * 7 % 5) + (char) ('a' + i));
            }
            show(list);
        }
    }
}
