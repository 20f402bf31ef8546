final class Client {
    static final int MOST_HOPS = 3;

    final String name;
    final String forward;
    private final Filter[] leaving;
    private final Filter[] coming;
    private int received;

    Client(String name, String forward) {
        this.name = name;
        this.forward = forward;
        this.leaving = Steps.leaving();
        this.coming = Steps.coming();
    }

    private static boolean through(Filter[] steps, Message message) {
        for (Filter step : steps) {
            if (!step.apply(message)) {
                return false;
            }
        }
        return true;
    }

    void send(Server server, Message message) {
        if (Options.BOOK) {
            message.to = server.named(message.to);
        }
        if (through(leaving, message)) {
            server.deliver(message);
        }
    }

    void receive(Server server, Message message) {
        if (!through(coming, message)) {
            return;
        }
        received++;
        System.out.println(message);
        if (Options.FORWARD && forward != null && message.hops < MOST_HOPS) {
            Message copy = new Message(message.from, forward, message.text);
            copy.seal = message.seal;
            copy.hops = message.hops + 1;
            server.deliver(copy);
        }
        if (Options.RESPOND && message.hops == 0) {
            Message answer = new Message(name, message.from, "away");
            answer.hops = 1;
            send(server, answer);
        }
    }

    int received() {
        return received;
    }
}
