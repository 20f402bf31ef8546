/** An interface that has to be initialised before a class that implements it. */
interface Initialised {
    int NUMBER = Integer.parseInt("3");

    default int number() {
        return NUMBER;
    }

    class Below implements Initialised {
    }
}
