package shop;

/** How the basket comes. */
sealed interface Delivery {
    int cost();

    record Post(int cost) implements Delivery {
    }

    record Courier(int cost, int hour) implements Delivery {
    }

    static Delivery of(int total) {
        boolean free = "1".equals(System.getenv("SHOP_FREE")) && total > 2000;
        if (Boolean.getBoolean("shop.express")) {
            return new Courier(free ? 500 : 900, Boolean.getBoolean("shop.night") ? 22 : 18);
        }
        return new Post(free ? 0 : 390);
    }
}
