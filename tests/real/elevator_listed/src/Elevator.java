import java.util.ArrayList;
import java.util.BitSet;
import java.util.Iterator;
import java.util.List;
import java.util.Map;

class Elevator {
    static final int MOST = 200;

    private static final int MOST_PEOPLE = 8;

    private final Map<Integer, Floor> floors;
    private final List<Person> inside = new ArrayList<Person>();
    private final BitSet pressed = new BitSet();
    private int at;
    private int direction = 1;

    Elevator(Map<Integer, Floor> floors) {
        this.floors = floors;
    }

    int weight() {
        int sum = 0;
        for (Person person : inside) {
            sum += person.weight;
        }
        return sum;
    }

    boolean hasRoom() {
        return inside.size() < MOST_PEOPLE;
    }

    void enter(Person person) {
        inside.add(person);
        pressed.set(person.to);
        tell(person.name + " enters at " + at);
    }

    private void leave() {
        for (Iterator<Person> it = inside.iterator(); it.hasNext();) {
            Person person = it.next();
            if (person.to == at) {
                person.arrived = true;
                tell(person.name + " leaves at " + at);
                it.remove();
            }
        }
        pressed.clear(at);
        if (Options.EMPTY && inside.isEmpty()) {
            pressed.clear();
        }
    }

    private boolean stopsHere() {
        if (Options.EXECUTIVE_FLOOR && !floors.get(at).isExecutive() && executiveCalls()) {
            return false;
        }
        if (Options.TWO_THIRDS_FULL && 3 * weight() > 2 * MOST) {
            return pressed.get(at);
        }
        return pressed.get(at) || floors.get(at).isCalled();
    }

    private boolean executiveCalls() {
        for (Floor floor : floors.values()) {
            if (floor.isExecutive() && (floor.isCalled() || pressed.get(floor.number))) {
                return true;
            }
        }
        return false;
    }

    boolean isBlocked() {
        return Options.OVERLOADED && Options.WEIGHT && weight() > MOST;
    }

    void step() {
        if (stopsHere()) {
            leave();
            floors.get(at).board(this);
        }
        if (isBlocked()) {
            throw new IllegalStateException("overloaded at " + at + " with " + weight());
        }
        if (at + direction < 0 || at + direction == floors.size()) {
            direction = -direction;
        }
        at += direction;
    }

    boolean isIdle() {
        for (Floor floor : floors.values()) {
            if (floor.isCalled() || pressed.get(floor.number)) {
                return false;
            }
        }
        return true;
    }

    private static void tell(String text) {
        if (Options.VERBOSE) {
            System.out.println(text);
        }
    }
}
