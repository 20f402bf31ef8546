/** What the machine raises itself, in a loop that calls itself. */
class Raised {
    static Object[] cells = new String[2];

    static void put(int depth, Object value) {
        if (depth == 0) {
            cells[1] = value;
        } else {
            put(depth - 1, value);
        }
    }

    public static void main(String[] words) {
        put(2, "text");
        put(2, Integer.valueOf(3));
    }
}
