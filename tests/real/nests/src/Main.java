/** Private members that nest mates use. */
public class Main {
    static boolean DEEP;
    static boolean OTHER;

    private int count = 1;
    private static int all = 10;

    private int step() {
        return count += 2;
    }

    private static int steps(Main m) {
        all += m.step();
        return all;
    }

    interface Speaker {
        private String word() {
            return "word" + rank();
        }

        private static String fixed() {
            return "fixed";
        }

        private String tail() {
            return "tail" + rank();
        }

        int rank();

        default String speak() {
            return word() + fixed() + tail();
        }

        class Helper {
            static String twice(Speaker s) {
                return s.word() + s.word() + fixed();
            }
        }
    }

    static class Upper {
        private String who() {
            return "upper";
        }

        String ask() {
            return who();
        }

        private String rest() {
            return "upper rest";
        }

        String askRest() {
            return rest();
        }
    }

    static class Lower extends Upper implements Speaker {
        private String who() {
            return "lower";
        }

        String rest() {
            return "lower rest";
        }

        String other() {
            return ((Upper) this).who() + who();
        }

        @Override
        public int rank() {
            return 7;
        }
    }

    static class Hidden {
        private final String text;
        private long sum;

        private Hidden(String text) {
            this.text = text;
        }

        private class Inner {
            private int depth = 3;

            private String path() {
                sum += depth;
                return text + depth + sum;
            }
        }
    }

    private enum Level {
        LOW, HIGH;

        private int value() {
            return ordinal() * 5;
        }
    }

    class Inner {
        int use() {
            count++;
            return step() + steps(Main.this) + all;
        }
    }

    public static void main(String[] args) {
        Main m = new Main();
        System.out.println(m.new Inner().use());
        Lower lower = new Lower();
        Upper upper = OTHER ? new Upper() : lower;
        System.out.println(upper.who() + upper.ask() + lower.other() + lower.who());
        System.out.println(upper.askRest() + lower.rest());
        System.out.println(lower.speak() + Speaker.Helper.twice(lower));
        Hidden hidden = new Hidden("h");
        Hidden.Inner inner = hidden.new Inner();
        inner.depth += DEEP ? 4 : 0;
        System.out.println(inner.path() + hidden.sum + hidden.text);
        System.out.println(Level.valueOf("HIGH").value());
    }
}
