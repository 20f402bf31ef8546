public class Main {
    private static String hours(Day day) {
        if (day.isFree()) {
            return "closed";
        }
        switch (day) {
            case MONDAY:
                return "late";
            case TUESDAY:
            case WEDNESDAY:
            case THURSDAY:
                return "all day";
            default:
                return "early";
        }
    }

    public static void main(String[] arguments) {
        Day day = Day.WEDNESDAY;
        int free = 0;
        for (int i = 0; i < 7; i++) {
            System.out.println(day + " " + hours(day));
            if (day.isFree()) {
                free++;
            }
            day = day.next();
        }
        System.out.println(free);
        int value = 7;
        for (Operation operation : Operation.values()) {
            value = operation.apply(value, 3);
            System.out.println((Options.SIGNS ? operation.toString() : operation.name()) + " " + value);
        }
        System.out.println(Day.SUNDAY.compareTo(Day.MONDAY));
    }
}
