package varexj.lang;

/** An object that knows its class: {@code prepare} gives each class of a program this interface. */
public interface ClassOf {
    /** The class object of the class of which this object is, as its literal gives it. */
    Class<?> varexjClass();
}
