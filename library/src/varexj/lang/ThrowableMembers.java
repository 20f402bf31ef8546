package varexj.lang;

/** Members of Throwable that the machine doesn't have, as static methods of the throwable. */
public final class ThrowableMembers {
    private ThrowableMembers() {
    }

    /** {@code thrown.fillInStackTrace()}: traces are not kept. */
    public static Throwable fillInStackTrace(Throwable thrown) {
        if (thrown == null) {
            throw new NullPointerException();
        }
        return thrown;
    }

    /** {@code thrown.initCause(cause)} of one whose constructor was given a cause. The machine has no way to set one later. */
    public static Throwable initCause(Throwable thrown, Throwable cause) {
        if (thrown.getCause() != null) {
            throw new IllegalStateException("Can't overwrite cause with " + (cause == null ? "a null" : cause.toString()), thrown);
        }
        return setCause(thrown, cause);
    }

    private static native Throwable setCause(Throwable thrown, Throwable cause);

    /** The name of the class of a throwable. */
    static String nameOfClass(Throwable thrown) {
        return thrown.className0();
    }

    /** The class of a throwable of a core class. */
    static Class<?> classOf(Throwable thrown) {
        switch (thrown.className0()) {
            case "java.lang.Throwable":
                return Throwable.class;
            case "java.lang.Exception":
                return Exception.class;
            case "java.lang.RuntimeException":
                return RuntimeException.class;
            case "java.lang.Error":
                return Error.class;
            case "java.lang.IllegalArgumentException":
                return IllegalArgumentException.class;
            case "java.lang.IllegalStateException":
                return IllegalStateException.class;
            case "java.lang.UnsupportedOperationException":
                return UnsupportedOperationException.class;
            case "java.lang.ArithmeticException":
                return ArithmeticException.class;
            case "java.lang.ArrayStoreException":
                return ArrayStoreException.class;
            case "java.lang.ClassCastException":
                return ClassCastException.class;
            case "java.lang.NegativeArraySizeException":
                return NegativeArraySizeException.class;
            case "java.lang.NullPointerException":
                return NullPointerException.class;
            case "java.lang.IndexOutOfBoundsException":
                return IndexOutOfBoundsException.class;
            case "java.lang.ArrayIndexOutOfBoundsException":
                return ArrayIndexOutOfBoundsException.class;
            case "java.lang.StringIndexOutOfBoundsException":
                return StringIndexOutOfBoundsException.class;
            case "java.lang.NumberFormatException":
                return NumberFormatException.class;
            case "java.util.NoSuchElementException":
                return java.util.NoSuchElementException.class;
            case "java.lang.LinkageError":
                return LinkageError.class;
            case "java.lang.ExceptionInInitializerError":
                return ExceptionInInitializerError.class;
            case "java.lang.NoClassDefFoundError":
                return NoClassDefFoundError.class;
            case "java.lang.IncompatibleClassChangeError":
                return IncompatibleClassChangeError.class;
            case "java.lang.AbstractMethodError":
                return AbstractMethodError.class;
            case "java.lang.InstantiationError":
                return InstantiationError.class;
            case "java.lang.NoSuchFieldError":
                return NoSuchFieldError.class;
            case "java.lang.VirtualMachineError":
                return VirtualMachineError.class;
            case "java.lang.StackOverflowError":
                return StackOverflowError.class;
            case "java.lang.OutOfMemoryError":
                return OutOfMemoryError.class;
            case "java.lang.AssertionError":
                return AssertionError.class;
            default:
                return ClassTable.getClass(thrown);
        }
    }
}
