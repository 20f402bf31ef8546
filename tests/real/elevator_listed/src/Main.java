import java.util.Map;
import java.util.TreeMap;

/** An elevator with features that get in each other's way. */
public class Main {
    public static void main(String[] arguments) {
        Map<Integer, Floor> floors = new TreeMap<Integer, Floor>();
        for (int i = 0; i < 5; i++) {
            floors.put(i, new Floor(i));
        }
        Person[] people = {
            new Person("ada", 60, 0, 3), new Person("bob", 90, 1, 0), new Person("cyd", 80, 1, 4),
            new Person("dan", 75, 4, 1)
        };
        for (Person person : people) {
            floors.get(person.from).arrive(person);
        }
        Elevator elevator = new Elevator(floors);
        int steps = 0;
        while (!elevator.isIdle() && steps < 30) {
            elevator.step();
            steps++;
        }
        System.out.println(steps < 30 ? "idle after " + steps : "never idle");
        for (Person person : people) {
            if (!person.arrived) {
                System.out.println(person.name + " did not arrive");
            }
        }
    }
}
