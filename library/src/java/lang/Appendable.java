package java.lang;

import java.io.IOException;

/** As in the class library. */
public interface Appendable {
    Appendable append(CharSequence text) throws IOException;

    Appendable append(CharSequence text, int begin, int end) throws IOException;

    Appendable append(char unit) throws IOException;
}
