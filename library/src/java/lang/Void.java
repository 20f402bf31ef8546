package java.lang;

/** As in the class library. */
public final class Void {
    private Void() {
    }
}
