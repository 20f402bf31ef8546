/** An exception that leaves blocks and methods which are synchronized. */
class Synchronized {
    private final Object lock = new Object();
    private int[] cells = new int[2];

    synchronized void put(int at, Object value) {
        synchronized (lock) {
            cells[at] = ((Integer) value).intValue();
        }
    }

    public static void main(String[] words) {
        Synchronized all = new Synchronized();
        all.put(0, Integer.valueOf(1));
        all.put(1, "one");
    }
}
