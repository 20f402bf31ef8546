/** Two initialisers, of which the one fails by the other, and a frame in common. */
class Main {
    static boolean FULL;

    public static void main(String[] words) {
        look();
    }

    static void look() {
        System.out.println(Outer.SIZE);
    }

    static class Outer {
        static final int SIZE = size();

        static int size() {
            try {
                return Inner.SIZE;
            } finally {
                System.out.println("outer");
            }
        }
    }

    static class Inner {
        static final int SIZE = 6 / own();

        static int own() {
            return FULL ? 1 : 0;
        }
    }
}
