import java.io.Closeable;
import java.io.IOException;

/** Rooms that are opened and closed again, whatever happens in them. */
public class Main {
    static boolean LAST_FAILS;
    static boolean BODY_FAILS;
    static boolean CLOSE_FAILS;
    static boolean NESTED;
    static boolean COPIED;
    static boolean QUIET;

    static int open;

    static class Room implements Closeable, Cloneable {
        final String name;
        final StringBuffer log = new StringBuffer();
        Room next;

        Room(String name) throws IOException {
            if (LAST_FAILS && name.equals("attic")) {
                throw new IOException("no " + name);
            }
            this.name = name;
            open++;
            System.out.println("open " + name + " " + open);
        }

        class Guest {
            final Character initial;

            Guest(char initial) {
                this.initial = initial;
                log.append(initial);
            }

            @Override
            public boolean equals(Object other) {
                return other instanceof Guest && initial.equals(((Guest) other).initial);
            }

            @Override
            public int hashCode() {
                return initial.hashCode();
            }
        }

        @Override
        public void close() throws IOException {
            open--;
            System.out.println("close " + name + " " + log + " " + open);
            if (CLOSE_FAILS && name.equals("cellar")) {
                throw new IOException("stuck " + name);
            }
        }
    }

    static void visit() throws Exception {
        try (Room cellar = new Room("cellar"); Room attic = new Room("attic")) {
            Room.Guest first = cellar.new Guest('a');
            Room.Guest second = attic.new Guest(QUIET ? 'a' : 'b');
            System.out.println(first.equals(second) + " " + (first.hashCode() - second.hashCode()));
            if (NESTED) {
                try (AutoCloseable inner = new AutoCloseable() {
                    @Override
                    public void close() throws InterruptedException {
                        System.out.println("inner closed");
                        if (BODY_FAILS) {
                            throw new InterruptedException("inner");
                        }
                    }
                }) {
                    System.out.println("inside");
                }
            }
            if (BODY_FAILS) {
                throw new CloneNotSupportedException("body");
            }
            Room gone = QUIET ? null : cellar;
            System.out.println(gone.new Guest('z').initial);
        } finally {
            System.out.println("left " + open);
        }
    }

    static void copies() {
        int[][] plan = {{1, 2}, {3}};
        int[][] copy = plan.clone();
        copy[0][0] = COPIED ? 9 : 1;
        copy[1] = new int[] {COPIED ? 4 : 3, 5};
        System.out.println(plan[0][0] + " " + plan[1].length + " " + copy[1].length);
        StringBuffer text = new StringBuffer("copied");
        text.replace(0, COPIED ? 2 : 1, "XY").delete(3, 5).setLength(COPIED ? 3 : 6);
        System.out.println(text.length() + " " + text.charAt(2) + " " + text.indexOf("Y") + " " + text.lastIndexOf("X", 3));
        try {
            text.setCharAt(COPIED ? 4 : 5, '.');
            System.out.println(text.charAt(5));
        } catch (StringIndexOutOfBoundsException e) {
            System.out.println("outside");
        }
    }

    public static void main(String[] args) throws Exception {
        copies();
        try {
            visit();
        } catch (IOException e) {
            System.out.println("room: " + e.getMessage());
            if (!QUIET) {
                throw e;
            }
        } catch (InterruptedException | CloneNotSupportedException e) {
            System.out.println(e);
            throw new IllegalStateException("visit", e);
        }
        System.out.println(open);
    }
}
