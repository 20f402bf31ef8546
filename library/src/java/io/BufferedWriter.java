package java.io;

/** As in the class library: what is written comes through at a flush, at the end, and where the buffer is full. */
public class BufferedWriter extends Writer {
    private Writer out;
    private char[] units;
    private int count;

    public BufferedWriter(Writer out) {
        this(out, 8192);
    }

    public BufferedWriter(Writer out, int size) {
        super(out);
        if (size <= 0) {
            throw new IllegalArgumentException("Buffer size <= 0");
        }
        this.out = out;
        this.units = new char[size];
    }

    private void ensureOpen() throws IOException {
        if (out == null) {
            throw new IOException("Stream closed");
        }
    }

    private void flushBuffer() throws IOException {
        ensureOpen();
        if (count > 0) {
            out.write(units, 0, count);
            count = 0;
        }
    }

    @Override
    public void write(int unit) throws IOException {
        ensureOpen();
        if (count >= units.length) {
            flushBuffer();
        }
        units[count] = (char) unit;
        count++;
    }

    @Override
    public void write(char[] source, int offset, int length) throws IOException {
        ensureOpen();
        StringReader.checkPart(offset, length, source.length);
        if (length >= units.length) {
            flushBuffer();
            out.write(source, offset, length);
            return;
        }
        int at = offset;
        int left = length;
        while (left > 0) {
            int step = Math.min(units.length - count, left);
            System.arraycopy(source, at, units, count, step);
            at += step;
            count += step;
            left -= step;
            if (count >= units.length) {
                flushBuffer();
            }
        }
    }

    @Override
    public void write(String text, int offset, int length) throws IOException {
        ensureOpen();
        char[] source = text.toCharArray();
        int at = offset;
        int left = length;
        while (left > 0) {
            int step = Math.min(units.length - count, left);
            varexj.lang.StringMembers.getChars(text, at, at + step, units, count);
            at += step;
            count += step;
            left -= step;
            if (count >= units.length) {
                flushBuffer();
            }
        }
    }

    public void newLine() throws IOException {
        write("\n");
    }

    @Override
    public void flush() throws IOException {
        flushBuffer();
        out.flush();
    }

    @Override
    public void close() throws IOException {
        if (out != null) {
            try {
                flushBuffer();
            } finally {
                out.close();
                out = null;
                units = null;
            }
        }
    }
}
