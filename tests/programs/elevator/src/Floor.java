final class Floor {
    final int number;
    private final Person[] waiting = new Person[4];
    private int count;
    private boolean called;

    Floor(int number) {
        this.number = number;
    }

    void arrive(Person person) {
        waiting[count++] = person;
        called = true;
    }

    boolean isCalled() {
        return called;
    }

    boolean isExecutive() {
        return number == 4;
    }

    /** Those who wait go in, as long as there is room. */
    void board(Elevator elevator) {
        int left = 0;
        for (int i = 0; i < count; i++) {
            if (elevator.hasRoom()) {
                elevator.enter(waiting[i]);
            } else {
                waiting[left++] = waiting[i];
            }
        }
        count = left;
        called = left > 0;
    }
}
