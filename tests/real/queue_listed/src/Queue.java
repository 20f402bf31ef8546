import java.util.ArrayList;
import java.util.List;

/** Jobs that wait, in a list. */
final class Queue {
    static final class Full extends Exception {
        Full(Job job) {
            super("no room for " + job);
        }
    }

    private final int most = Options.BOUNDED ? 3 : 16;
    private final List<Job> jobs = new ArrayList<Job>();

    boolean isEmpty() {
        return jobs.isEmpty();
    }

    int size() {
        return jobs.size();
    }

    void put(Job job) throws Full {
        if (jobs.size() == most) {
            if (!Options.DROP_OLDEST) {
                throw new Full(job);
            }
            take();
        }
        int at = jobs.size();
        if (Options.PRIORITY && job.urgent) {
            while (at > 0 && !jobs.get(at - 1).urgent) {
                at--;
            }
        }
        jobs.add(at, job);
    }

    Job take() {
        return jobs.remove(0);
    }
}
