/** A stack with a hidden node class and an iterator that knows its stack; options choose the order and a bound. */
public class Main {
    static boolean REVERSED;
    static boolean BOUNDED;

    private Node top;
    private int size;

    private static class Node {
        private final int value;
        private final Node below;

        Node(int value, Node below) {
            this.value = value;
            this.below = below;
        }
    }

    /** Walks from the top down. */
    private class Walk {
        private Node at = top;
        private int seen;

        boolean hasNext() {
            return at != null;
        }

        int next() {
            int value = at.value;
            at = at.below;
            seen++;
            return value;
        }

        boolean isWhole() {
            return seen == size;
        }
    }

    interface Visitor {
        void visit(int value);
    }

    void push(int value) {
        if (BOUNDED && size == 4) {
            return;
        }
        top = new Node(value, top);
        size++;
    }

    void each(Visitor visitor) {
        Walk walk = new Walk();
        while (walk.hasNext()) {
            visitor.visit(walk.next());
        }
        System.out.println(walk.isWhole());
    }

    Main reversed() {
        final Main other = new Main();
        each(new Visitor() {
            public void visit(int value) {
                other.push(value);
            }
        });
        return other;
    }

    public static void main(String[] arguments) {
        Main stack = new Main();
        for (int i = 1; i <= 6; i++) {
            stack.push(i * i);
        }
        if (REVERSED) {
            stack = stack.reversed();
        }
        final StringBuilder text = new StringBuilder();
        stack.each(new Visitor() {
            private int count;

            public void visit(int value) {
                if (count++ > 0) {
                    text.append(", ");
                }
                text.append(value);
            }
        });
        System.out.println(text.toString());
    }
}
