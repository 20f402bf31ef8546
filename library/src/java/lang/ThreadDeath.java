package java.lang;

/** As in the class library. */
public class ThreadDeath extends Error {
    public ThreadDeath() {
    }
}
