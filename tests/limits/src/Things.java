/** What the tries need. */
class Things {
    int number = 3;
    float weight;
    java.util.List<String> list;

    class Inner {
    }

    static native void nowhere();

    static void fail() {
        throw new IllegalStateException();
    }

    static void fails() throws java.io.IOException {
        fail();
    }
}
