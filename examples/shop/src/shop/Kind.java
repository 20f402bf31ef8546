package shop;

/** Kinds of goods, each with its tax in per cent. */
enum Kind {
    FOOD(7),
    HOUSE(19),
    MEDIA(7) {
        @Override
        boolean mayBeReduced() {
            return false;
        }
    };

    private final int tax;

    Kind(int tax) {
        this.tax = tax;
    }

    int tax() {
        return tax;
    }

    /** Books have a fixed price. */
    boolean mayBeReduced() {
        return true;
    }
}
