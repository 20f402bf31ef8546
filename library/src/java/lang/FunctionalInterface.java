package java.lang;

/** As in the class library. */
public @interface FunctionalInterface {}
