package varexj.lang;

/** The members of System that the machine doesn't have. */
public final class SystemMembers {
    private SystemMembers() {
    }

    /** {@code System.identityHashCode(object)}. */
    public static int identityHashCode(Object object) {
        return ObjectMembers.identityHashCode(object);
    }

    /** {@code System.getProperty(key)}. */
    public static String getProperty(String key) {
        checkKey(key);
        return "line.separator".equals(key) ? "\n" : Settings.property(key);
    }

    /** {@code System.getProperty(key, otherwise)}. */
    public static String getProperty(String key, String otherwise) {
        String found = getProperty(key);
        return found == null ? otherwise : found;
    }

    private static void checkKey(String key) {
        if (key == null) {
            throw new NullPointerException("key can't be null");
        }
        if (key.isEmpty()) {
            throw new IllegalArgumentException("key can't be empty");
        }
    }

    /** {@code System.getenv(name)}. */
    public static String getenv(String name) {
        if (name == null) {
            throw new NullPointerException();
        }
        return Settings.environment(name);
    }

    /** {@code System.gc()}: nothing that can be seen. */
    public static void gc() {
    }
}
