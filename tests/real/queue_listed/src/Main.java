/** Jobs come, wait and are done: ten options of a queue. */
public class Main {
    private static int seed = 7;
    private static int done;
    private static int lost;
    private static long waited;

    private static int random(int below) {
        seed = seed * 1103515245 + 12345 & 0x7fffffff;
        return (seed >> 8) % below;
    }

    private static void trace(String text) {
        if (Options.TRACE) {
            System.out.println(text);
        }
    }

    private static void offer(Queue queue, Job job) {
        try {
            queue.put(job);
            trace("put " + job);
        } catch (Queue.Full full) {
            if (Options.RETRY && job.attempts++ < 1) {
                if (!queue.isEmpty()) {
                    work(queue);
                }
                offer(queue, job);
            } else {
                lost++;
                if (Options.STRICT) {
                    throw new IllegalStateException(full.getMessage());
                }
                trace(full.getMessage());
            }
        }
    }

    private static void work(Queue queue) {
        int most = Options.BATCH ? 2 : 1;
        for (int i = 0; i < most && !queue.isEmpty(); i++) {
            Job job = queue.take();
            waited += (long) job.cost * (queue.size() + 1);
            done++;
            trace("done " + job);
        }
    }

    public static void main(String[] arguments) {
        Queue queue = new Queue();
        int number = 0;
        if (!Options.EMPTY_START) {
            offer(queue, new Job(number++, 1, false));
        }
        for (int tick = 0; tick < 6; tick++) {
            int come = random(3);
            for (int i = 0; i < come; i++) {
                offer(queue, new Job(number++, 1 + random(4), random(3) == 0));
            }
            if (Options.FAST || tick % 2 == 1) {
                work(queue);
            }
        }
        System.out.println(done + " done, " + lost + " lost, " + queue.size() + " wait");
        if (Options.STATISTICS) {
            System.out.println(waited / Math.max(done, Options.STRICT ? 0 : 1));
        }
    }
}
