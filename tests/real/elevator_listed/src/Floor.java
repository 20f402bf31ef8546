import java.util.ArrayDeque;
import java.util.Deque;

final class Floor {
    final int number;
    private final Deque<Person> waiting = new ArrayDeque<Person>();
    private boolean called;

    Floor(int number) {
        this.number = number;
    }

    void arrive(Person person) {
        waiting.add(person);
        called = true;
    }

    boolean isCalled() {
        return called;
    }

    boolean isExecutive() {
        return number == 4;
    }

    /** Those who wait go in, as long as there is room. */
    void board(Elevator elevator) {
        while (!waiting.isEmpty() && elevator.hasRoom()) {
            elevator.enter(waiting.remove());
        }
        called = !waiting.isEmpty();
    }
}
