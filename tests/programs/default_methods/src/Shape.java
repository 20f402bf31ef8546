interface Shape {
    int area();

    default int doubled() {
        return 2 * area();
    }

    default String text() {
        return name() + " of " + area() + ", doubled " + doubled();
    }

    String name();

    static Shape larger(Shape one, Shape other) {
        return one.area() >= other.area() ? one : other;
    }
}
