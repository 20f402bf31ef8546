package java.util;

/** The locales in which letters and numbers are written as no language changes them. What a Java machine has beside them isn't here. */
public final class Locale {
    public static final Locale ROOT = new Locale("", "");
    public static final Locale ENGLISH = new Locale("en", "");
    public static final Locale US = new Locale("en", "US");
    public static final Locale UK = new Locale("en", "GB");

    private final String language;
    private final String country;

    private Locale(String language, String country) {
        this.language = language;
        this.country = country;
    }

    public String getLanguage() {
        return language;
    }

    public String getCountry() {
        return country;
    }

    /** A number that isn't known here. */
    @Override
    public native int hashCode();

    @Override
    public String toString() {
        return country.isEmpty() ? language : language.concat("_").concat(country);
    }
}
