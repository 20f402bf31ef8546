import java.io.OutputStream;
import java.util.Iterator;
import java.util.Locale;
import java.util.PrimitiveIterator;

/** As the doctor beside this: copies, streams, settings of the machine, interfaces with bodies, and what is called where an exception is made. */
public class Main {
    static boolean COPY, OUTPUT, HOME, PATH, VERSION, BODIES, LOCALE, CAUSE, LITERAL, GRID, CALL, FIELD, ABOVE;

    static class Copied extends RuntimeException implements Cloneable {
        Copied(String text) {
            super(text);
        }

        Object copy() throws CloneNotSupportedException {
            return super.clone();
        }
    }

    static class Numbers implements PrimitiveIterator.OfInt {
        @Override
        public boolean hasNext() {
            return true;
        }

        @Override
        public int nextInt() {
            return 4;
        }
    }

    static class Weighed extends Exception {
        private int weight = 5;

        @Override
        public String getMessage() {
            return weight / 2.0 > 1 ? "heavy" : "light";
        }
    }

    static class Held {
        static int part = (int) (FIELD ? 2.5 : 0.5);
    }

    static class Above {
        static int size = (int) (ABOVE ? 1.5 : 0.5);
    }

    static class Below extends Above {
        static int part = ABOVE ? 3 : 4;
    }

    public static void main(String[] args) throws Exception {
        System.out.println("begin");
        if (COPY) {
            System.out.println(((Copied) new Copied("copied").copy()).getMessage());
        }
        if (LOCALE) {
            System.out.println(Locale.FRENCH);
        }
        if (OUTPUT) {
            Object o = System.out;
            ((OutputStream) o).flush();
        }
        if (HOME) {
            System.out.println(System.getProperty("user.home") == null);
        }
        if (PATH) {
            System.out.println(System.getenv("PATH") == null);
        }
        if (VERSION) {
            System.out.println(System.getProperty("java.version") == null);
        }
        if (BODIES) {
            Iterator<Integer> numbers = new Numbers();
            System.out.println(numbers.next());
        }
        if (CAUSE) {
            System.out.println(new RuntimeException(new Weighed()).getMessage());
        }
        if (LITERAL) {
            System.out.println(java.io.File.class == null);
        }
        if (GRID) {
            System.out.println(new java.io.File[2][3].length);
        }
        if (CALL) {
            System.out.println(Runtime.getRuntime() == null);
        }
        if (FIELD) {
            System.out.println(Held.part);
        }
        if (ABOVE) {
            System.out.println(Below.part);
        }
        System.out.println("end");
    }
}
