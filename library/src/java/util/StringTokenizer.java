package java.util;

/** The parts of a text between delimiters. */
public class StringTokenizer implements Enumeration<Object> {
    private final String text;
    private String delimiters;
    private final boolean returnsDelimiters;
    private int place;

    public StringTokenizer(String str) {
        this(str, " \t\n\r\f", false);
    }

    public StringTokenizer(String str, String delim) {
        this(str, delim, false);
    }

    public StringTokenizer(String str, String delim, boolean returnDelims) {
        if (str == null) {
            throw new NullPointerException();
        }
        text = str;
        returnsDelimiters = returnDelims;
        setDelimiters(delim);
    }

    private void setDelimiters(String delim) {
        delimiters = delim;
        if (delim != null) {
            for (int i = 0; i < delim.length(); i++) {
                char unit = delim.charAt(i);
                if (unit >= '\ud800' && unit <= '\udfff') {
                    delimiterOfTwoUnits();
                }
            }
        }
    }

    private static native void delimiterOfTwoUnits();

    private boolean isDelimiter(int at) {
        return delimiters.indexOf(text.charAt(at)) >= 0;
    }

    private int skip(int from) {
        if (delimiters == null) {
            throw new NullPointerException();
        }
        int at = from;
        while (!returnsDelimiters && at < text.length() && isDelimiter(at)) {
            at++;
        }
        return at;
    }

    private int scan(int from) {
        int at = from;
        while (at < text.length() && !isDelimiter(at)) {
            at++;
        }
        return returnsDelimiters && at == from && at < text.length() ? at + 1 : at;
    }

    public boolean hasMoreTokens() {
        return skip(place) < text.length();
    }

    public String nextToken() {
        place = skip(place);
        if (place >= text.length()) {
            throw new NoSuchElementException();
        }
        int start = place;
        place = scan(place);
        return text.substring(start, place);
    }

    public String nextToken(String delim) {
        setDelimiters(delim);
        return nextToken();
    }

    public boolean hasMoreElements() {
        return hasMoreTokens();
    }

    public Object nextElement() {
        return nextToken();
    }

    public int countTokens() {
        int count = 0;
        int at = place;
        while (at < text.length()) {
            at = skip(at);
            if (at < text.length()) {
                at = scan(at);
                count++;
            }
        }
        return count;
    }
}
