package java.io;

import varexj.lang.Format;

/** As in the class library. */
public class PrintWriter extends Writer {
    protected Writer out;
    private final boolean flushesLines;
    private boolean trouble;

    private static final class Pieces extends Format {
        private final PrintWriter writer;

        Pieces(PrintWriter writer) {
            this.writer = writer;
        }

        @Override
        protected void put(String piece) {
            writer.append(piece);
        }

        @Override
        protected void fill() {
            writer.append(' ');
        }
    }

    public PrintWriter(Writer out) {
        this(out, false);
    }

    public PrintWriter(Writer out, boolean autoFlush) {
        super(out);
        this.out = out;
        this.flushesLines = autoFlush;
    }

    /** The stream may be a PrintStream, which is the machine's, and no OutputStream here. */
    public PrintWriter(OutputStream out) {
        this(out, false);
    }

    public PrintWriter(OutputStream out, boolean autoFlush) {
        this(new BufferedWriter(new OutputStreamWriter(out)), autoFlush);
    }

    @Override
    public void flush() {
        try {
            if (out == null) {
                throw new IOException("Stream closed");
            }
            out.flush();
        } catch (IOException e) {
            trouble = true;
        }
    }

    @Override
    public void close() {
        try {
            if (out != null) {
                out.close();
                out = null;
            }
        } catch (IOException e) {
            trouble = true;
        }
    }

    public boolean checkError() {
        if (out != null) {
            flush();
        }
        return trouble;
    }

    protected void setError() {
        trouble = true;
    }

    protected void clearError() {
        trouble = false;
    }

    @Override
    public void write(int unit) {
        try {
            if (out == null) {
                throw new IOException("Stream closed");
            }
            out.write(unit);
        } catch (IOException e) {
            trouble = true;
        }
    }

    @Override
    public void write(char[] units, int offset, int length) {
        try {
            if (out == null) {
                throw new IOException("Stream closed");
            }
            out.write(units, offset, length);
        } catch (IOException e) {
            trouble = true;
        }
    }

    @Override
    public void write(char[] units) {
        write(units, 0, units.length);
    }

    @Override
    public void write(String text, int offset, int length) {
        try {
            if (out == null) {
                throw new IOException("Stream closed");
            }
            out.write(text, offset, length);
        } catch (IOException e) {
            trouble = true;
        }
    }

    @Override
    public void write(String text) {
        write(text, 0, text.length());
    }

    public void print(boolean value) {
        write(String.valueOf(value));
    }

    public void print(int number) {
        write(String.valueOf(number));
    }

    public void print(long number) {
        write(String.valueOf(number));
    }

    public void print(String text) {
        write(String.valueOf((Object) text));
    }

    public void print(Object value) {
        write(String.valueOf(value));
    }

    public void print(char unit) {
        write(unit);
    }

    public void print(char[] units) {
        write(units);
    }

    public void println() {
        try {
            if (out == null) {
                throw new IOException("Stream closed");
            }
            out.write("\n");
            if (flushesLines) {
                out.flush();
            }
        } catch (IOException e) {
            trouble = true;
        }
    }

    public void println(boolean value) {
        print(value);
        println();
    }

    public void println(char unit) {
        print(unit);
        println();
    }

    public void println(int number) {
        print(number);
        println();
    }

    public void println(long number) {
        print(number);
        println();
    }

    public void println(char[] units) {
        print(units);
        println();
    }

    public void println(String text) {
        print(text);
        println();
    }

    public void println(Object value) {
        String text = String.valueOf(value);
        print(text);
        println();
    }

    public PrintWriter printf(String pattern, Object... values) {
        return format(pattern, values);
    }

    public PrintWriter format(String pattern, Object... values) {
        new Pieces(this).write(pattern, values);
        if (flushesLines) {
            flush();
        }
        return this;
    }

    @Override
    public PrintWriter append(CharSequence text) {
        write(String.valueOf((Object) text));
        return this;
    }

    @Override
    public PrintWriter append(CharSequence text, int begin, int end) {
        CharSequence whole = text == null ? "null" : text;
        return append(varexj.lang.CharSequenceMembers.subSequence(whole, begin, end));
    }

    @Override
    public PrintWriter append(char unit) {
        write(unit);
        return this;
    }
}
