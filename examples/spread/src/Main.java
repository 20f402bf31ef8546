/**
 * A program whose runs share little: its numbers come from a seed that differs in each configuration, and which way it goes from the
 * numbers.
 */
public class Main {
    static final int COUNT = 6;

    static int seed;

    static int next() {
        seed = seed * 1103515245 + 12345;
        return seed >>> 16 & 1023;
    }

    static void sort(int[] numbers) {
        for (int i = 1; i < numbers.length; i++) {
            int number = numbers[i];
            int place = i;
            while (place > 0 && numbers[place - 1] > number) {
                numbers[place] = numbers[place - 1];
                place--;
            }
            numbers[place] = number;
        }
    }

    public static void main(String[] words) {
        seed = Options.sum();
        int[] numbers = new int[COUNT];
        for (int i = 0; i < COUNT; i++) {
            numbers[i] = next();
        }
        sort(numbers);
        int check = 0;
        for (int i = 0; i < COUNT; i++) {
            check = 31 * check + numbers[i];
        }
        System.out.println(Options.sum());
        System.out.println(check);
        if (check % 64 == 0) {
            throw new IllegalStateException();
        }
    }
}
