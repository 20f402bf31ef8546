package shop;

/** Settings that are chosen when the shop is built. */
final class Flags {
    /** Whether prices are shown with tax. */
    static boolean TAX = Boolean.parseBoolean("false");

    private Flags() {
    }

    /** Whether the shop has a feature. */
    static boolean has(String feature) {
        return Boolean.getBoolean("feature." + feature);
    }
}
