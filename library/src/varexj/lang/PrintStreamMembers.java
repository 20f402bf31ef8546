package varexj.lang;

import java.io.PrintStream;

/** The members of PrintStream that the machine doesn't have, as static methods of the stream. */
public final class PrintStreamMembers {
    private PrintStreamMembers() {
    }

    private static final class Pieces extends Format {
        private final PrintStream stream;

        Pieces(PrintStream stream) {
            this.stream = stream;
        }

        @Override
        protected void put(String piece) {
            stream.print(piece);
        }

        @Override
        protected void fill() {
            stream.print(' ');
        }
    }

    /** {@code stream.printf(pattern, values)}. */
    public static PrintStream printf(PrintStream stream, String pattern, Object... values) {
        return format(stream, pattern, values);
    }

    /** {@code stream.format(pattern, values)}: what stands before a part that fails is written, as on a Java machine. */
    public static PrintStream format(PrintStream stream, String pattern, Object... values) {
        if (stream == null) {
            throw new NullPointerException();
        }
        new Pieces(stream).write(pattern, values);
        return stream;
    }

    /** {@code stream.append(unit)}. */
    public static PrintStream append(PrintStream stream, char unit) {
        stream.print(unit);
        return stream;
    }

    /** {@code stream.append(text)}. */
    public static PrintStream append(PrintStream stream, CharSequence text) {
        stream.print((Object) text);
        return stream;
    }

    /** {@code stream.append(text, begin, end)}. */
    public static PrintStream append(PrintStream stream, CharSequence text, int begin, int end) {
        CharSequence whole = text == null ? "null" : text;
        stream.print((Object) CharSequenceMembers.subSequence(whole, begin, end));
        return stream;
    }

    /** {@code stream.write(number)}, of a byte of ASCII. */
    public static void write(PrintStream stream, int number) {
        int octet = number & 255;
        if (octet > 127) {
            writeOctet(stream, octet);
        }
        stream.print((char) octet);
    }

    /** {@code stream.write(bytes, offset, count)}, of bytes of ASCII. */
    public static void write(PrintStream stream, byte[] bytes, int offset, int count) {
        if (offset < 0 || count < 0 || offset > bytes.length - count) {
            throw new IndexOutOfBoundsException("Range [" + offset + ", " + offset + " + " + count + ") out of bounds for length " + bytes.length);
        }
        for (int at = offset; at < offset + count; at++) {
            write(stream, bytes[at]);
        }
    }

    private static native void writeOctet(PrintStream stream, int octet);

    /** {@code stream.checkError()}: the machine writes without faults. */
    public static boolean checkError(PrintStream stream) {
        stream.flush();
        return false;
    }

    /** {@code stream.close()}: what is printed afterwards would be lost. */
    public static native void close(PrintStream stream);
}
