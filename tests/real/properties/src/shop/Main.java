package shop;

/** Settings from properties and the environment. */
public final class Main {
    private static final boolean GIFT = Boolean.getBoolean("shop.gift");
    static final boolean SAFE = Boolean.getBoolean("shop.safe");
    private static final String MODE = System.getProperty("shop.mode", "plain");
    private static final int SIZE = Integer.getInteger("shop.size", 4);

    private Main() {
    }

    public static void main(String[] args) {
        System.out.println(GIFT + " " + MODE + " " + SIZE + " " + SAFE);
        System.out.println(System.getProperty("shop.fixed") + System.getProperty("shop.unset") + System.getProperty("shop.unset", "else"));
        String level = System.getenv("SHOP_LEVEL");
        System.out.println(level == null ? "no level" : "level " + level.length());
        System.out.print(System.getProperty("line.separator"));
        try {
            System.getProperty("");
        } catch (IllegalArgumentException e) {
            System.out.println(e.getMessage());
        }
        switch (MODE) {
            case "fast":
                System.out.println(1);
                break;
            case "slow":
                throw new IllegalStateException("slow");
            default:
                System.out.println(GIFT ? 3 : 4);
        }
    }
}
