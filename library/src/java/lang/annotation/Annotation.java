package java.lang.annotation;

/** As in the class library: what each type of annotations extends. */
public interface Annotation {
    boolean equals(Object other);

    int hashCode();

    String toString();

    Class<? extends Annotation> annotationType();
}
