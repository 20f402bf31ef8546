import java.io.Serializable;
import java.util.ArrayList;
import java.util.Arrays;
import java.util.Comparator;
import java.util.List;
import java.util.function.BiFunction;
import java.util.function.Consumer;
import java.util.function.Function;
import java.util.function.IntBinaryOperator;
import java.util.function.IntFunction;
import java.util.function.Predicate;
import java.util.function.Supplier;
import java.util.function.ToIntFunction;
import java.util.function.ToLongFunction;
import java.util.function.UnaryOperator;

/** Lambdas and references of each kind. */
public class Main {
    static boolean DOUBLE;
    static boolean REVERSE;
    static boolean LOUD;

    interface Step<T> {
        T run(T from) throws Exception;

        default Step<T> then(Step<T> next) {
            return from -> next.run(run(from));
        }

        static <T> Step<T> same() {
            return from -> from;
        }
    }

    interface TextStep extends Step<String> {
        @Override
        String run(String from);
    }

    interface Labelled {
        default String label() {
            return "label " + getClass().isInterface();
        }
    }

    static class Base {
        String name(int n) {
            return "base" + n;
        }
    }

    static class Derived extends Base {
        private final int add;

        Derived(int add) {
            this.add = add;
        }

        @Override
        String name(int n) {
            IntFunction<String> above = super::name;
            IntFunction<String> own = k -> "own" + (k + add) + above.apply(k);
            return own.apply(n);
        }
    }

    interface Taker<T> {
        String take(T from);
    }

    interface TextTaker {
        String take(String from);
    }

    interface Both extends Taker<String>, TextTaker {
    }

    interface Named {
        String name();

        default Supplier<String> asked() {
            return this::name;
        }
    }

    static <T> T itself(T value) {
        return value;
    }

    static long coded(long unit) {
        return unit + 1;
    }

    private final int[] held = {1, 2};

    private int sum(int more) {
        IntBinaryOperator plus = (a, b) -> a + b + held[0];
        return plus.applyAsInt(held[1], more);
    }

    static String join(String... words) {
        return Arrays.asList(words).toString();
    }

    static long wide(int number) {
        return number * 3L;
    }

    public static void main(String[] args) throws Exception {
        List<String> words = new ArrayList<>(Arrays.asList("pear", "fig", "apple"));
        Comparator<String> order = Comparator.comparing(String::length);
        if (REVERSE) {
            order = order.reversed();
        }
        words.sort(order.thenComparing(Comparator.naturalOrder()));
        System.out.println(words);
        UnaryOperator<String> shout = LOUD ? s -> s + "!" : UnaryOperator.identity();
        words.replaceAll(shout);
        words.forEach(System.out::println);
        Step<Integer> step = n -> n + 1;
        if (DOUBLE) {
            step = step.then(n -> n * 2);
        }
        System.out.println(step.then(Step.same()).run(20));
        TextStep text = String::toString;
        Step<String> asStep = text;
        System.out.println(asStep.run("through a bridge"));
        Function<Integer, Derived> make = Derived::new;
        System.out.println(make.apply(3).name(4));
        System.out.println(new Main().sum(5));
        BiFunction<String, String, String> varargs = Main::join;
        System.out.println(varargs.apply("x", "y"));
        ToLongFunction<Integer> widened = Main::wide;
        System.out.println(widened.applyAsLong(7));
        ToIntFunction<String> length = String::length;
        ToLongFunction<String> wideLength = String::length;
        Function<Character, Long> code = Main::coded;
        System.out.println(wideLength.applyAsLong("abcd") + code.apply('c'));
        ToIntFunction<Byte> itself = Main::itself;
        System.out.println(itself.applyAsInt((byte) -7));
        Both both = from -> "took " + from;
        Taker<String> taker = both;
        TextTaker textTaker = both;
        System.out.println(taker.take("a") + textTaker.take("b"));
        Named named = () -> "named";
        System.out.println(named.asked().get());
        Supplier<Integer> boxed = "four"::length;
        System.out.println(length.applyAsInt("abc") + boxed.get());
        IntFunction<int[]> array = int[]::new;
        System.out.println(array.apply(3).length);
        Runnable marked = (Runnable & Serializable & Labelled) () -> System.out.println("marked");
        marked.run();
        System.out.println(marked instanceof Serializable);
        System.out.println(((Labelled) marked).label());
        Predicate<String> isLong = s -> s.length() > 4;
        System.out.println(isLong.negate().or(s -> s.equals("apple")).test("apple"));
        Supplier<Supplier<String>> twice = () -> () -> "inner" + DOUBLE;
        System.out.println(twice.get().get());
        System.out.println(same() == same());
        Consumer<Object> casts = o -> System.out.println(((String) o).length());
        try {
            casts.accept(5);
        } catch (ClassCastException e) {
            System.out.println("no text");
        }
        Function raw = (Function<String, Integer>) String::length;
        try {
            raw.apply(7);
        } catch (ClassCastException e) {
            System.out.println("no text either");
        }
        try {
            Supplier<String> none = ((Main) null)::toString;
        } catch (NullPointerException e) {
            System.out.println("nothing to ask");
        }
    }

    static Runnable same() {
        return () -> { };
    }
}
