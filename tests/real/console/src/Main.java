import java.io.PrintWriter;
import java.io.StringWriter;
import java.lang.annotation.Retention;
import java.lang.annotation.RetentionPolicy;

/** A table on the console: written through a writer, with lines that come at once or at a flush. */
@Main.Shown("console")
public class Main {
    static boolean AT_ONCE;
    static boolean FLUSHED;
    static boolean GROUPED;
    static boolean LEFT;
    static boolean HEXADECIMAL;
    static boolean LOST;

    @Retention(RetentionPolicy.RUNTIME)
    @interface Shown {
        String value() default "nothing";

        int width() default 7;
    }

    /** A cell that says how often it was asked for its text. */
    static class Cell {
        private final Object value;
        private Short asked = 0;

        Cell(Object value) {
            this.value = value;
        }

        @Override
        public String toString() {
            asked++;
            System.out.print(asked);
            return "<" + value + ">";
        }
    }

    private static String pattern() {
        String flags = (LEFT ? "-" : "") + (GROUPED ? "," : "");
        return HEXADECIMAL ? "%-6s|%08x|%X|%#o%n" : "%-6s|%" + flags + "12d|%+d|%(d%n";
    }

    private static void table(PrintWriter out, Object[][] rows) {
        for (Object[] row : rows) {
            out.printf(pattern(), row);
        }
        out.format("%s %<s %1$s %b %c%%|%5c|%.2s|%n", new Cell(7L), LEFT ? null : "x", 'q', GROUPED ? (Object) 'z' : (Object) 0x41, "cut");
    }

    private static String joined(Object[][] rows) {
        StringWriter text = new StringWriter(4);
        try (PrintWriter out = new PrintWriter(text)) {
            table(out, rows);
            out.write("abcdef", 1, 3);
            out.write(new char[] {'x', 'y', 'z'}, 1, 2);
            out.write('!');
        }
        StringBuffer all = text.getBuffer();
        for (int at = all.length() - 1; at >= 0; at--) {
            if (all.charAt(at) == '\n') {
                all.insert(at, LEFT ? " /" : "/").deleteCharAt(all.indexOf("\n", at));
            }
        }
        return all.toString();
    }

    public static void main(String[] arguments) {
        Object[][] rows = {
            {"first", 1234567L, 255, (short) -7},
            {"last", GROUPED ? -1234567L : -1L, (byte) -1, Integer.MAX_VALUE},
            {null, LOST ? null : 5, Long.MAX_VALUE, (byte) 8},
        };
        PrintWriter out = new PrintWriter(System.out, AT_ONCE);
        out.println("table");
        System.out.println("before");
        table(out, rows);
        System.out.println("behind");
        if (FLUSHED) {
            out.flush();
        }
        System.out.println(joined(rows));
        out.append("end").append('.').println();
        System.err.println(out.checkError());
        out.print(Character.valueOf('\u20ac'));
        out.println(new char[] {'a', 'b'});
        if (!LOST) {
            out.flush();
        }
    }
}
