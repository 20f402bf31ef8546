final class Server {
    private final Client[] clients;

    Server(Client... clients) {
        this.clients = clients;
    }

    /** The client whose name begins so, or the name itself. */
    String named(String start) {
        for (Client client : clients) {
            if (client.name.startsWith(start)) {
                return client.name;
            }
        }
        return start;
    }

    void deliver(Message message) {
        for (Client client : clients) {
            if (client.name.equals(message.to)) {
                client.receive(this, message);
                return;
            }
        }
        System.err.println("nobody is " + message.to);
    }
}
