final class Message {
    final String from;
    String to;
    String text;
    boolean zipped;
    boolean encrypted;
    int seal = -1;
    int hops;

    Message(String from, String to, String text) {
        this.from = from;
        this.to = to;
        this.text = text;
    }

    /** What a seal is made over: the text as it stands. */
    int sum() {
        int sum = 7;
        for (int i = 0; i < text.length(); i++) {
            sum = sum * 31 + text.charAt(i);
        }
        return sum & 0xffff;
    }

    @Override
    public String toString() {
        return from + " to " + to + ": " + text + (encrypted ? " (secret)" : "");
    }
}
