/** A ring of jobs. */
final class Queue {
    static final class Full extends Exception {
        Full(Job job) {
            super("no room for " + job);
        }
    }

    private final Job[] ring = new Job[Options.BOUNDED ? 3 : 16];
    private int first;
    private int count;

    boolean isEmpty() {
        return count == 0;
    }

    int size() {
        return count;
    }

    void put(Job job) throws Full {
        if (count == ring.length) {
            if (!Options.DROP_OLDEST) {
                throw new Full(job);
            }
            take();
        }
        int at = (first + count) % ring.length;
        if (Options.PRIORITY && job.urgent) {
            for (int i = count; i > 0; i--) {
                int before = (first + i - 1) % ring.length;
                if (ring[before].urgent) {
                    break;
                }
                ring[at] = ring[before];
                at = before;
            }
        }
        ring[at] = job;
        count++;
    }

    Job take() {
        Job job = ring[first];
        ring[first] = null;
        first = (first + 1) % ring.length;
        count--;
        return job;
    }
}
