import java.util.HashSet;
import java.util.Set;

/** Records, sealed types and patterns. */
public class Main {
    static boolean CUBE;
    static boolean NAMED;

    sealed interface Shape permits Box, Ball, Nothing {
        int size();
    }

    record Box(int a, int b, long c) implements Shape {
        Box {
            if (a < 0) {
                throw new IllegalArgumentException("negative");
            }
        }

        Box(int a) {
            this(a, a, a);
        }

        @Override
        public int size() {
            return (int) (a * b * c);
        }
    }

    record Ball(String name, boolean full, char sign, byte small, short mid) implements Shape {
        static int made;

        Ball(String name) {
            this(name, true, '*', (byte) -3, (short) 300);
            made++;
        }

        @Override
        public int size() {
            return small;
        }
    }

    record Nothing() implements Shape {
        @Override
        public int size() {
            return 0;
        }
    }

    record Pair<A, B>(A first, B second) {
        <C> Pair<A, C> with(C other) {
            return new Pair<>(first, other);
        }
    }

    record Own(int x) {
        @Override
        public int hashCode() {
            return 99;
        }

        @Override
        public String toString() {
            return "own " + x;
        }
    }

    static String tell(Object o) {
        if (o instanceof Box b && b.a() == b.b()) {
            return "even box " + b.size();
        } else if (o instanceof Ball ball) {
            return ball.name() + ball.sign();
        } else if (!(o instanceof Pair<?, ?> pair)) {
            return "other " + o;
        } else {
            return pair.first() + "/" + pair.second();
        }
    }

    public static void main(String[] args) {
        Shape box = CUBE ? new Box(3) : new Box(1, 2, 30_000_000_000L);
        Shape ball = new Ball(NAMED ? "round" : null);
        Object[] all = {box, ball, new Nothing(), new Pair<>(box, 5).with("x"), new Own(4), new Pair<>(null, null), "text"};
        Set<Object> seen = new HashSet<>();
        for (Object each : all) {
            System.out.println(tell(each) + " " + each.hashCode() + " " + each + " " + each.equals(new Own(4)) + seen.add(each));
        }
        System.out.println(new Box(3).equals(box) + " " + box.equals(box) + " " + box.equals(null) + " " + new Nothing().equals(new Nothing()));
        System.out.println(new Pair<>("a", 300).equals(new Pair<>("a", 300)) + " " + seen.contains(new Own(4)) + Ball.made);
        System.out.println(new Ball("x", false, 'c', (byte) 1, (short) 2).hashCode());
        System.out.println(new Box(3, 3, 4).equals(new Box(3)) + " " + new Box(3).equals(new Box(3, 3, 4)));
        try {
            new Box(-1);
        } catch (IllegalArgumentException e) {
            System.out.println(e.getMessage());
        }
    }
}
