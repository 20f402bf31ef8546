package java.io;

/** As in the class library. */
public abstract class Writer implements Appendable, Closeable, Flushable {
    protected Object lock;

    protected Writer() {
        lock = this;
    }

    protected Writer(Object lock) {
        if (lock == null) {
            throw new NullPointerException();
        }
        this.lock = lock;
    }

    public void write(int unit) throws IOException {
        char[] units = {(char) unit};
        write(units, 0, 1);
    }

    public void write(char[] units) throws IOException {
        write(units, 0, units.length);
    }

    public abstract void write(char[] units, int offset, int length) throws IOException;

    public void write(String text) throws IOException {
        write(text, 0, text.length());
    }

    public void write(String text, int offset, int length) throws IOException {
        char[] units = text.substring(offset, offset + length).toCharArray();
        write(units, 0, length);
    }

    @Override
    public Writer append(CharSequence text) throws IOException {
        write(String.valueOf((Object) text));
        return this;
    }

    @Override
    public Writer append(CharSequence text, int begin, int end) throws IOException {
        CharSequence whole = text == null ? "null" : text;
        return append(varexj.lang.CharSequenceMembers.subSequence(whole, begin, end));
    }

    @Override
    public Writer append(char unit) throws IOException {
        write(unit);
        return this;
    }

    @Override
    public abstract void flush() throws IOException;

    @Override
    public abstract void close() throws IOException;
}
