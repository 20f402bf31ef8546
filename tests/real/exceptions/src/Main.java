/** Exceptions: causes, resources, messages, and constructors that the core lacks. */
public class Main {
    static boolean FAIL;
    static boolean CLOSE;
    static boolean DEEP;

    static class Resource implements AutoCloseable {
        private final String name;

        Resource(String name) {
            this.name = name;
            System.out.println("open " + name);
        }

        @Override
        public void close() throws Exception {
            System.out.println("close " + name);
            if (CLOSE) {
                throw new java.io.IOException("closing " + name);
            }
        }
    }

    static class Mine extends Exception {
        private final int code;

        Mine(String text, Throwable cause, int code) {
            super(text, cause, true, false);
            this.code = code;
        }
    }

    static class Passed extends RuntimeException {
        @Override
        public Throwable fillInStackTrace() {
            return super.fillInStackTrace();
        }
    }

    static int depth(int n) throws Mine {
        try {
            if (n == 0) {
                int[] none = new int[0];
                return FAIL ? none[n] : 1;
            }
            return depth(n - 1) + 1;
        } catch (RuntimeException e) {
            throw new Mine("depth " + n, e, n);
        } finally {
            if (DEEP) {
                System.out.println("back " + n);
            }
        }
    }

    public static void main(String[] args) throws Exception {
        try (Resource a = new Resource("a"); Resource b = new Resource("b")) {
            System.out.println(depth(2));
        } catch (Mine e) {
            System.out.println(e.getMessage() + e.code + (e.getCause() instanceof ArrayIndexOutOfBoundsException));
        } catch (java.io.IOException | IllegalStateException e) {
            System.out.println("io " + e.getMessage() + " " + e);
        }
        try {
            throw new IndexOutOfBoundsException(7);
        } catch (IndexOutOfBoundsException e) {
            System.out.println(e.getMessage() != null);
        }
        try {
            Object o = "text";
            Integer n = (Integer) o;
        } catch (ClassCastException e) {
            System.out.println("cast");
        }
        try {
            throw new Passed();
        } catch (Passed e) {
            System.out.println(e + " " + (e.fillInStackTrace() == e));
        }
        try {
            throw new AssertionError(5);
        } catch (AssertionError e) {
            System.out.println(e.getMessage());
        }
        if (FAIL && CLOSE) {
            throw new java.io.UncheckedIOException("last", new java.io.IOException("inner"));
        }
    }
}
