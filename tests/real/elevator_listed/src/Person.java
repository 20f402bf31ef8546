final class Person {
    final String name;
    final int weight;
    final int from;
    final int to;
    boolean arrived;

    Person(String name, int weight, int from, int to) {
        this.name = name;
        this.weight = weight;
        this.from = from;
        this.to = to;
    }
}
