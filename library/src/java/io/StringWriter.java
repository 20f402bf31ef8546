package java.io;

/** As in the class library. */
public class StringWriter extends Writer {
    private final StringBuffer buffer = new StringBuffer();

    public StringWriter() {
    }

    public StringWriter(int size) {
        if (size < 0) {
            throw new IllegalArgumentException("Negative buffer size");
        }
    }

    @Override
    public void write(int unit) {
        buffer.append((char) unit);
    }

    @Override
    public void write(char[] units, int offset, int length) {
        StringReader.checkPart(offset, length, units.length);
        if (length > 0) {
            buffer.append(units, offset, length);
        }
    }

    @Override
    public void write(String text) {
        buffer.append(text);
    }

    @Override
    public void write(String text, int offset, int length) {
        buffer.append((CharSequence) text, offset, offset + length);
    }

    @Override
    public StringWriter append(CharSequence text) {
        write(String.valueOf((Object) text));
        return this;
    }

    @Override
    public StringWriter append(CharSequence text, int begin, int end) {
        CharSequence whole = text == null ? "null" : text;
        return append(varexj.lang.CharSequenceMembers.subSequence(whole, begin, end));
    }

    @Override
    public StringWriter append(char unit) {
        write(unit);
        return this;
    }

    @Override
    public String toString() {
        return buffer.toString();
    }

    public StringBuffer getBuffer() {
        return buffer;
    }

    @Override
    public void flush() {
    }

    @Override
    public void close() throws IOException {
    }
}
