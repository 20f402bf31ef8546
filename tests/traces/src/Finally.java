/** An exception that passes blocks of `finally`, which do work of their own and call other methods. */
class Finally {
    static int counted;

    static void count() {
        counted++;
    }

    static int divide(int a, int b) {
        return a / b;
    }

    static int kept(int b) {
        try {
            int half = divide(10, b);
            return half + 1;
        } finally {
            count();
            try {
                divide(1, counted - counted);
            } catch (ArithmeticException e) {
                count();
            }
        }
    }

    public static void main(String[] words) {
        try {
            kept(5);
            kept(0);
        } finally {
            count();
            System.out.println(counted);
        }
    }
}
