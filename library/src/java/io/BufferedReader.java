package java.io;

/** As in the class library: it asks what is below for as many units as its buffer has room for. */
public class BufferedReader extends Reader {
    private static final int UNMARKED = -1;
    private static final int INVALID = -2;

    private Reader in;
    private char[] units;
    private int next;
    private int end;
    private int marked = UNMARKED;
    private int limit;
    private boolean skipsLineFeed;
    private boolean markSkips;

    public BufferedReader(Reader in) {
        this(in, 8192);
    }

    public BufferedReader(Reader in, int size) {
        super(in);
        if (size <= 0) {
            throw new IllegalArgumentException("Buffer size <= 0");
        }
        this.in = in;
        this.units = new char[size];
    }

    private void ensureOpen() throws IOException {
        if (in == null) {
            throw new IOException("Stream closed");
        }
    }

    /** Reads on; what is kept for a mark moves to the front. */
    private void fill() throws IOException {
        int kept = keep();
        int read = in.read(units, kept, units.length - kept);
        while (read == 0) {
            read = in.read(units, kept, units.length - kept);
        }
        if (read > 0) {
            end = kept + read;
            next = kept;
        }
    }

    /** How many units are kept for the mark. */
    private int keep() {
        if (marked <= UNMARKED) {
            return 0;
        }
        int kept = next - marked;
        if (kept >= limit) {
            marked = INVALID;
            limit = 0;
            return 0;
        }
        char[] target = limit <= units.length ? units : new char[limit];
        System.arraycopy(units, marked, target, 0, kept);
        units = target;
        marked = 0;
        next = kept;
        end = kept;
        return kept;
    }

    @Override
    public int read() throws IOException {
        ensureOpen();
        while (true) {
            if (next >= end) {
                fill();
                if (next >= end) {
                    return -1;
                }
            }
            char unit = units[next];
            next++;
            boolean skipped = skipsLineFeed && unit == '\n';
            skipsLineFeed = false;
            if (!skipped) {
                return unit;
            }
        }
    }

    /** What one turn of reading gives: what is there, or what is below gives at once. */
    private int readSome(char[] target, int offset, int count) throws IOException {
        if (next >= end) {
            if (count >= units.length && marked <= UNMARKED && !skipsLineFeed) {
                return in.read(target, offset, count);
            }
            fill();
        }
        if (next >= end) {
            return -1;
        }
        if (skipsLineFeed) {
            skipsLineFeed = false;
            if (units[next] == '\n') {
                next++;
                if (next >= end) {
                    fill();
                }
                if (next >= end) {
                    return -1;
                }
            }
        }
        int read = Math.min(count, end - next);
        System.arraycopy(units, next, target, offset, read);
        next += read;
        return read;
    }

    @Override
    public int read(char[] target, int offset, int count) throws IOException {
        ensureOpen();
        StringReader.checkPart(offset, count, target.length);
        if (count == 0) {
            return 0;
        }
        int all = readSome(target, offset, count);
        if (all <= 0) {
            return all;
        }
        while (all < count && in.ready()) {
            int more = readSome(target, offset + all, count - all);
            if (more <= 0) {
                break;
            }
            all += more;
        }
        return all;
    }

    public String readLine() throws IOException {
        ensureOpen();
        StringBuilder line = null;
        while (true) {
            if (next >= end) {
                fill();
            }
            if (next >= end) {
                return line == null || line.length() == 0 ? null : line.toString();
            }
            if (skipsLineFeed && units[next] == '\n') {
                next++;
            }
            skipsLineFeed = false;
            int at = next;
            while (at < end && units[at] != '\n' && units[at] != '\r') {
                at++;
            }
            String part = varexj.lang.StringMembers.init(units, next, at - next);
            next = at;
            if (at < end) {
                skipsLineFeed = units[at] == '\r';
                next++;
                return line == null ? part : line.append(part).toString();
            }
            line = line == null ? new StringBuilder() : line;
            line.append(part);
        }
    }

    @Override
    public long skip(long count) throws IOException {
        if (count < 0) {
            throw new IllegalArgumentException("skip value is negative");
        }
        ensureOpen();
        long left = count;
        while (left > 0) {
            if (next >= end) {
                fill();
            }
            if (next >= end) {
                break;
            }
            if (skipsLineFeed) {
                skipsLineFeed = false;
                if (units[next] == '\n') {
                    next++;
                }
            }
            int step = (int) Math.min(left, end - next);
            next += step;
            left -= step;
        }
        return count - left;
    }

    @Override
    public boolean ready() throws IOException {
        ensureOpen();
        if (skipsLineFeed) {
            if (next >= end && in.ready()) {
                fill();
            }
            if (next < end) {
                if (units[next] == '\n') {
                    next++;
                }
                skipsLineFeed = false;
            }
        }
        return next < end || in.ready();
    }

    @Override
    public boolean markSupported() {
        return true;
    }

    @Override
    public void mark(int limit) throws IOException {
        if (limit < 0) {
            throw new IllegalArgumentException("Read-ahead limit < 0");
        }
        ensureOpen();
        this.limit = limit;
        marked = next;
        markSkips = skipsLineFeed;
    }

    @Override
    public void reset() throws IOException {
        ensureOpen();
        if (marked < 0) {
            throw new IOException(marked == INVALID ? "Mark invalid" : "Stream not marked");
        }
        next = marked;
        skipsLineFeed = markSkips;
    }

    @Override
    public void close() throws IOException {
        if (in != null) {
            try {
                in.close();
            } finally {
                in = null;
                units = null;
            }
        }
    }
}
