import java.util.ArrayList;
import java.util.HashMap;
import java.util.HashSet;
import java.util.List;
import java.util.Map;
import java.util.Set;

/** Each option comes to something that isn't there: its run prints what a Java machine prints, or ends unsupported, and that was told before. */
public class Main {
    static boolean INTERN, FLOAT, BOX, NATIVE, TREE, LETTER, CLASS, FIELD, THREAD, STREAM, ARRAY, CAST, TRACE;

    static class Worker extends Thread {
        @Override
        public void run() {
            System.out.println("run");
        }
    }

    interface Sized {
        Integer START = Integer.valueOf(args());

        static int args() {
            return 3;
        }

        default int size() {
            return START;
        }
    }

    static class Held implements Sized {
    }

    static class Same {
        final int n;

        Same(int n) {
            this.n = n;
        }

        @Override
        public int hashCode() {
            return 7;
        }

        @Override
        public boolean equals(Object o) {
            return o instanceof Same && ((Same) o).n == n;
        }
    }

    static native int outside();

    static class Traced extends RuntimeException {
        @Override
        public Throwable fillInStackTrace() {
            System.out.println("filled");
            return this;
        }
    }

    static double half(int n) {
        return n / 2.0;
    }

    public static void main(String[] args) throws Exception {
        System.out.println("begin");
        if (INTERN) {
            System.out.println(("a" + args.length).intern() == "a0");
        }
        if (FLOAT) {
            System.out.println(half(3) > 1);
        }
        if (BOX) {
            System.out.println(new Integer(5) == new Integer(5));
        }
        if (TREE) {
            Map<Same, Integer> map = new HashMap<>();
            for (int n = 0; n < 80; n++) {
                map.put(new Same(n), n);
            }
            System.out.println(map.get(new Same(41)));
        }
        if (LETTER) {
            System.out.println(Character.isLetter('\u0436') + " " + Character.isLetter('g'));
        }
        if (CLASS) {
            System.out.println(new java.util.Date(0).getTime());
        }
        if (FIELD) {
            System.out.println(java.io.File.separatorChar);
        }
        if (THREAD) {
            new Worker().run();
        }
        if (STREAM) {
            List<Integer> list = new ArrayList<>(List.of(1, 2));
            System.out.println(list.stream().mapToInt(n -> n).sum());
        }
        if (ARRAY) {
            Set<Object> set = new HashSet<>();
            set.add(new Object());
            System.out.println(set.size());
        }
        if (CAST) {
            Object o = args;
            System.out.println(o instanceof java.io.File);
        }
        if (TRACE) {
            System.out.println(new Traced().getMessage());
        }
        if (NATIVE) {
            System.out.println(new Held().size());
        }
        System.out.println("end");
    }
}
