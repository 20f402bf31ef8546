import java.util.Arrays;

/** Copies by `super.clone()`. */
public class Main {
    static boolean DEEP;
    static boolean LOWER;

    static class Part implements Cloneable {
        int size;
        long wide = 5;
        String name = "part";
        int[] marks = {1, 2};
        static int made;

        Part(int size) {
            this.size = size;
            made++;
        }

        @Override
        public Part clone() {
            try {
                Part copy = (Part) super.clone();
                if (DEEP) {
                    copy.marks = marks.clone();
                }
                return copy;
            } catch (CloneNotSupportedException e) {
                throw new AssertionError(e);
            }
        }

        @Override
        public String toString() {
            return name + size + wide + Arrays.toString(marks);
        }
    }

    static class Lower extends Part {
        private final boolean flag = true;
        private Part inner = new Part(7);

        Lower() {
            super(3);
        }

        @Override
        public String toString() {
            return "lower " + flag + super.toString() + inner;
        }
    }

    static class Plain {
        Object copy() throws CloneNotSupportedException {
            return super.clone();
        }
    }

    static class Shared implements Cloneable {
        Object copy() throws CloneNotSupportedException {
            return clone();
        }
    }

    static class Counted extends Shared {
        private int copies;

        @Override
        protected Object clone() throws CloneNotSupportedException {
            Counted copy = (Counted) super.clone();
            copy.copies++;
            return copy;
        }
    }

    static class Amount extends Number implements Cloneable {
        private int whole = 12;

        @Override
        public int intValue() {
            return whole;
        }

        @Override
        public long longValue() {
            return whole;
        }

        @Override
        public float floatValue() {
            throw new UnsupportedOperationException();
        }

        @Override
        public double doubleValue() {
            throw new UnsupportedOperationException();
        }

        Amount more() throws CloneNotSupportedException {
            Amount copy = (Amount) super.clone();
            copy.whole++;
            return copy;
        }
    }

    public static void main(String[] args) {
        Part first = LOWER ? new Lower() : new Part(9);
        int number = first.hashCode();
        Part second = first.clone();
        System.out.println((number == second.hashCode()) + " " + (number == first.hashCode()));
        second.size = 1;
        second.marks[0] = 50;
        System.out.println(first + " " + second + " " + Part.made + " " + (second.getClass() == first.getClass()));
        System.out.println((first.name == second.name) + " " + (first == second));
        if (first instanceof Lower) {
            System.out.println(((Lower) first).inner == ((Lower) second).inner);
        }
        try {
            Shared shared = LOWER ? new Counted() : new Shared();
            Object copy = shared.copy();
            System.out.println((copy == shared) + " " + (copy instanceof Counted ? ((Counted) copy).copies : 0));
            Amount amount = new Amount();
            System.out.println(amount.more().intValue() + " " + amount.longValue());
            new Plain().copy();
        } catch (CloneNotSupportedException e) {
            System.out.println(e.getMessage());
        }
        int[][] grid = {{1}, {2, 3}};
        int[][] same = grid.clone();
        same[0] = new int[4];
        System.out.println(grid[0].length + same[1].length);
    }
}
