import java.util.AbstractList;
import java.util.Iterator;
import java.util.RandomAccess;

/** A list of one's own: the numbers from one to another. */
final class Row extends AbstractList<Integer> implements RandomAccess {
    private final int from;
    private final int size;

    Row(int from, int size) {
        this.from = from;
        this.size = size;
    }

    @Override
    public Integer get(int index) {
        if (index < 0 || index >= size) {
            throw new IndexOutOfBoundsException("place " + index);
        }
        return from + index;
    }

    @Override
    public int size() {
        return size;
    }

    int sum() {
        int sum = 0;
        for (Iterator<Integer> it = iterator(); it.hasNext();) {
            sum += it.next();
        }
        return sum;
    }
}
