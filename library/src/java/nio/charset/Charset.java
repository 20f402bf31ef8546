package java.nio.charset;

import varexj.lang.StringMembers;

/** A way to write texts as bytes: one of {@link StandardCharsets}. */
public abstract class Charset implements Comparable<Charset> {
    private final String name;

    Charset(String name) {
        this.name = name;
    }

    /** The charset of this name, where it is one of those that are here. */
    public static Charset forName(String name) {
        if (name == null) {
            throw new IllegalArgumentException("Null charset name");
        }
        Charset[] all = {StandardCharsets.UTF_8, StandardCharsets.US_ASCII, StandardCharsets.ISO_8859_1};
        for (int at = 0; at < all.length; at++) {
            if (StringMembers.equalsIgnoreCase(all[at].name, name)) {
                return all[at];
            }
        }
        return other(name);
    }

    private static native Charset other(String name);

    public final String name() {
        return name;
    }

    @Override
    public final int compareTo(Charset other) {
        return StringMembers.compareToIgnoreCase(name, other.name);
    }

    @Override
    public final int hashCode() {
        return name.hashCode();
    }

    @Override
    public final boolean equals(Object other) {
        return other instanceof Charset && name.equals(((Charset) other).name);
    }

    @Override
    public final String toString() {
        return name;
    }
}
