/** An initialiser that fails inside of another one, below a class that waits, and is wrapped once. */
class Initialisers {
    static class Top {
        static int value = Deep.value + 1;
    }

    static class Left extends Top {
        static int left = value + 1;
    }

    static class Deep {
        static int value = deep(0);

        static int deep(int by) {
            return 7 / by;
        }
    }

    static int take() {
        return Left.left;
    }

    public static void main(String[] words) {
        System.out.println("begin");
        System.out.println(take());
    }
}
