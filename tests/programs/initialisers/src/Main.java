/** Static initialisers: when they run, in which order, and what happens when one fails. */
public class Main {
    static int count = first();

    static int first() {
        System.out.println("Main begins");
        return 1;
    }

    static class Base {
        static final String NAME = "constant";
        static int level = Main.note("Base", 1);
    }

    static class Derived extends Base {
        static int level = Main.note("Derived", Base.level + 1);
        static final Integer BOXED = 5;
    }

    static class Broken {
        static int value = compute();

        static int compute() {
            System.out.println("Broken begins");
            return 100 / (Options.BROKEN ? 0 : 4);
        }
    }

    static class Ring {
        static Ring self = new Ring();
        static int seen = 7;
        final int copied;

        Ring() {
            copied = seen;
        }
    }

    interface Holder {
        int HELD = Main.note("Holder", 40);
    }

    static int note(String name, int value) {
        System.out.println(name + " " + count++);
        return value;
    }

    static String attempt() {
        try {
            return "value " + Broken.value;
        } catch (ExceptionInInitializerError e) {
            return "failed: " + e.getCause().getMessage();
        } catch (NoClassDefFoundError e) {
            return "not there";
        }
    }

    public static void main(String[] arguments) {
        if (Options.EAGER) {
            System.out.println(Derived.level);
        }
        System.out.println(Base.NAME);
        System.out.println(attempt());
        if (Options.AGAIN) {
            System.out.println(attempt());
        }
        System.out.println(Ring.self.copied + " " + Ring.seen);
        System.out.println(Derived.BOXED + Derived.level);
        System.out.println(Holder.HELD + count);
    }
}
