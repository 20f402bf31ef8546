final class Job {
    final int number;
    final int cost;
    final boolean urgent;
    int attempts;

    Job(int number, int cost, boolean urgent) {
        this.number = number;
        this.cost = cost;
        this.urgent = urgent;
    }

    @Override
    public String toString() {
        return (urgent ? "!" : "#") + number;
    }
}
