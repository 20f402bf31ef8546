import java.io.Externalizable;
import java.io.ObjectInput;
import java.io.ObjectOutput;
import java.io.Serializable;
import java.util.concurrent.Callable;
import java.util.concurrent.RunnableFuture;
import java.util.concurrent.TimeUnit;

/** Classes that implement interfaces of the class library which aren't here, and are used as what they are. */
public class Main {
    static boolean MORE;
    static boolean FAIL;

    static class Stored implements Externalizable, Comparable<Stored> {
        private final int size;

        Stored(int size) {
            this.size = size;
        }

        @Override
        public void writeExternal(ObjectOutput out) {
        }

        @Override
        public void readExternal(ObjectInput in) {
        }

        @Override
        public int compareTo(Stored other) {
            return Integer.compare(size, other.size);
        }

        @Override
        public String toString() {
            return "stored " + size;
        }
    }

    static class Task implements Callable<String> {
        @Override
        public String call() {
            if (FAIL) {
                throw new IllegalStateException("failed");
            }
            return MORE ? "more" : "done";
        }
    }

    static class Later implements RunnableFuture<String> {
        private boolean ran;

        @Override
        public void run() {
            ran = true;
        }

        @Override
        public boolean cancel(boolean now) {
            return false;
        }

        @Override
        public boolean isCancelled() {
            return false;
        }

        @Override
        public boolean isDone() {
            return ran;
        }

        @Override
        public String get() {
            return ran ? "ran" : "waits";
        }

        @Override
        public String get(long time, TimeUnit unit) {
            return get();
        }
    }

    public static void main(String[] args) {
        Stored stored = new Stored(MORE ? 7 : 3);
        Object any = stored;
        System.out.println(stored + " " + stored.compareTo(new Stored(5)) + " " + (any instanceof Serializable) + (any instanceof Comparable));
        Later later = new Later();
        if (MORE) {
            ((Runnable) later).run();
        }
        System.out.println(later.get() + later.isDone());
        System.out.println(new Task().call());
    }
}
