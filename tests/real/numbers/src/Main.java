import java.util.ArrayList;
import java.util.Arrays;
import java.util.BitSet;
import java.util.Collections;
import java.util.List;
import java.util.OptionalInt;
import java.util.Random;

/** Arrays, sets of bits, and the algorithms of Collections. */
public class Main {
    static boolean SHUFFLED;
    static boolean TWICE;
    static boolean NEGATIVE;
    static boolean SIEVE;

    private static OptionalInt firstAbove(int[] sorted, int bound) {
        int at = Arrays.binarySearch(sorted, bound);
        int from = at < 0 ? -at - 1 : at + 1;
        return from < sorted.length ? OptionalInt.of(sorted[from]) : OptionalInt.empty();
    }

    public static void main(String[] arguments) {
        List<Integer> list = new ArrayList<>();
        for (int i = 0; i < 14; i++) {
            list.add(i * i % 23 - (NEGATIVE ? 9 : 0));
        }
        if (TWICE) {
            list.addAll(new ArrayList<>(list.subList(3, 7)));
        }
        if (SHUFFLED) {
            Collections.shuffle(list, new Random(42));
        }
        System.out.println(list + " " + Collections.frequency(list, 4) + " " + Collections.min(list) + ".." + Collections.max(list));
        Collections.rotate(list, 3);
        Collections.swap(list, 0, list.size() - 1);
        System.out.println(list.indexOf(9) + " " + list.lastIndexOf(4) + " " + Collections.indexOfSubList(list, list.subList(5, 7)));
        int[] numbers = new int[list.size()];
        for (int i = 0; i < numbers.length; i++) {
            numbers[i] = list.get(i);
        }
        Arrays.sort(numbers);
        System.out.println(Arrays.toString(numbers) + " " + Arrays.hashCode(numbers) + " " + firstAbove(numbers, 12) + " " + firstAbove(numbers, 90));
        int[][] table = {Arrays.copyOf(numbers, 3), Arrays.copyOfRange(numbers, 10, 16), {}};
        Arrays.fill(table[0], 1, 2, 77);
        System.out.println(Arrays.deepToString(table) + " " + Arrays.equals(table[0], numbers));
        Collections.sort(list, Collections.<Integer>reverseOrder());
        System.out.println(Collections.binarySearch(list, 4, Collections.<Integer>reverseOrder()) + " " + list);
        BitSet bits = new BitSet();
        if (SIEVE) {
            bits.set(2, 60);
            for (int i = 2; i < 8; i++) {
                for (int j = i * i; bits.get(i) && j < 60; j += i) {
                    bits.clear(j);
                }
            }
        } else {
            for (int number : numbers) {
                if (number >= 0) {
                    bits.flip(number);
                }
            }
        }
        BitSet even = new BitSet();
        for (int i = 0; i < 70; i += 2) {
            even.set(i);
        }
        even.and(bits);
        System.out.println(bits + " " + bits.cardinality() + " " + bits.length() + " " + even + " " + bits.nextClearBit(2) + " " + bits.hashCode());
        System.out.println(Collections.nCopies(3, bits.nextSetBit(5)) + " " + bits.toLongArray()[0]);
    }
}
