package java.lang;

/** As in the class library. */
public @interface Deprecated {
    String since() default "";

    boolean forRemoval() default false;
}
