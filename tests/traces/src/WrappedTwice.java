/** What wraps the failure of one initialiser is the cause of the failure of another one. */
class WrappedTwice {
    static class Inner {
        static String text = text(null);

        static String text(String from) {
            if (from == null) {
                throw new IllegalArgumentException();
            }
            return from;
        }
    }

    static class Outer {
        static String text;

        static {
            try {
                text = Inner.text;
            } catch (ExceptionInInitializerError e) {
                throw new IllegalStateException("outer", e);
            }
        }
    }

    public static void main(String[] words) {
        System.out.println(Outer.text);
    }
}
