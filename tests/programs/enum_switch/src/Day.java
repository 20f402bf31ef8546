enum Day {
    MONDAY, TUESDAY, WEDNESDAY, THURSDAY, FRIDAY, SATURDAY, SUNDAY;

    boolean isFree() {
        switch (this) {
            case SATURDAY:
                return Options.LONG_WEEKEND || !Options.SHOP;
            case SUNDAY:
                return true;
            case FRIDAY:
                return Options.LONG_WEEKEND;
            default:
                return false;
        }
    }

    Day next() {
        return values()[(ordinal() + 1) % values().length];
    }
}
