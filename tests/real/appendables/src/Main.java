import java.io.Closeable;
import java.io.IOException;
import java.io.StringWriter;

/** Texts are written to what is an Appendable: on a Java machine a StringBuilder and a PrintStream are. */
public class Main {
    static boolean BUILDER;
    static boolean STREAM;

    static class Counter implements Appendable, Closeable {
        private int count;

        @Override
        public Appendable append(CharSequence text) {
            count += text.length();
            return this;
        }

        @Override
        public Appendable append(CharSequence text, int start, int end) {
            return append(text.subSequence(start, end));
        }

        @Override
        public Appendable append(char unit) {
            count++;
            return this;
        }

        @Override
        public void close() {
            System.out.println("closed " + count);
        }
    }

    static Object chosen() {
        return BUILDER ? new StringBuilder("b:") : STREAM ? System.out : new Counter();
    }

    public static void main(String[] args) throws IOException {
        Object any = chosen();
        System.out.println(any instanceof Appendable);
        Appendable to = (Appendable) any;
        Appendable same = to.append("one").append('2').append("xyz", 1, 3);
        System.out.println(same == to);
        System.out.println(BUILDER ? to.toString() : "no builder");
        if (any instanceof Counter) {
            try (Closeable counter = (Closeable) any) {
                to.append(new StringBuilder("more"));
            }
        }
        Object text = "text";
        try {
            System.out.println(text instanceof Appendable);
            ((Appendable) text).append('c');
        } catch (ClassCastException e) {
            System.out.println("no appendable");
        }
        StringWriter writer = new StringWriter();
        writer.append("w").append('x');
        System.out.println(writer);
    }
}
