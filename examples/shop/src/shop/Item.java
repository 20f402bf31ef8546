package shop;

/** A thing in the basket, with its price in cents. */
record Item(String name, Kind kind, int cents) {
    Item {
        if (cents <= 0) {
            throw new IllegalArgumentException("no price: " + name);
        }
    }
}
