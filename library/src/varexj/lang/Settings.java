package varexj.lang;

/**
 * The settings from outside. A program that runs without {@code prepare} has none that are known, so each method here ends the run;
 * {@code prepare} writes a class of this name and these methods in its place.
 */
public final class Settings {
    private Settings() {
    }

    /** The property of this key, or null. */
    public static native String property(String key);

    /** The variable of the environment of this name, or null. */
    public static native String environment(String name);
}
