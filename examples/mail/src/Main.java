/** A small mail program as a product line: eight options, some of which get in each other's way. */
public class Main {
    public static void main(String[] arguments) {
        Client ann = new Client("ann", null);
        Client ben = new Client("ben", "cyd");
        Client cyd = new Client("cyd", "ben");
        Server server = new Server(ann, ben, cyd);
        ann.send(server, new Message("ann", "ben", "see you soon"));
        cyd.send(server, new Message("cyd", "a", "buy now!!"));
        System.out.println(ann.received() + " " + ben.received() + " " + cyd.received());
    }
}
