class Elevator {
    static final int MOST = 200;

    private final Floor[] floors;
    private final Person[] inside = new Person[8];
    private final boolean[] pressed;
    private int people;
    private int at;
    private int direction = 1;

    Elevator(Floor[] floors) {
        this.floors = floors;
        this.pressed = new boolean[floors.length];
    }

    int weight() {
        int sum = 0;
        for (int i = 0; i < people; i++) {
            sum += inside[i].weight;
        }
        return sum;
    }

    boolean hasRoom() {
        return people < inside.length;
    }

    void enter(Person person) {
        inside[people++] = person;
        pressed[person.to] = true;
        tell(person.name + " enters at " + at);
    }

    private void leave() {
        int left = 0;
        for (int i = 0; i < people; i++) {
            Person person = inside[i];
            if (person.to == at) {
                person.arrived = true;
                tell(person.name + " leaves at " + at);
            } else {
                inside[left++] = person;
            }
        }
        people = left;
        pressed[at] = false;
        if (Options.EMPTY && people == 0) {
            for (int i = 0; i < pressed.length; i++) {
                pressed[i] = false;
            }
        }
    }

    private boolean stopsHere() {
        if (Options.EXECUTIVE_FLOOR && !floors[at].isExecutive() && executiveCalls()) {
            return false;
        }
        if (Options.TWO_THIRDS_FULL && 3 * weight() > 2 * MOST) {
            return pressed[at];
        }
        return pressed[at] || floors[at].isCalled();
    }

    private boolean executiveCalls() {
        for (Floor floor : floors) {
            if (floor.isExecutive() && (floor.isCalled() || pressed[floor.number])) {
                return true;
            }
        }
        return false;
    }

    boolean isBlocked() {
        return Options.OVERLOADED && Options.WEIGHT && weight() > MOST;
    }

    void step() {
        if (stopsHere()) {
            leave();
            floors[at].board(this);
        }
        if (isBlocked()) {
            throw new IllegalStateException("overloaded at " + at + " with " + weight());
        }
        if (at + direction < 0 || at + direction == floors.length) {
            direction = -direction;
        }
        at += direction;
    }

    boolean isIdle() {
        for (Floor floor : floors) {
            if (floor.isCalled() || pressed[floor.number]) {
                return false;
            }
        }
        return true;
    }

    private static void tell(String text) {
        if (Options.VERBOSE) {
            System.out.println(text);
        }
    }
}
