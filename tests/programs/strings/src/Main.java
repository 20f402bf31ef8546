/** Texts: built, cut, compared and turned round. */
public class Main {
    static boolean UPPER;
    static boolean REVERSE;
    static boolean COMMAS;
    static boolean SHORT;

    private static String upper(String text) {
        StringBuilder out = new StringBuilder();
        for (int i = 0; i < text.length(); i++) {
            char c = text.charAt(i);
            if (c >= 'a' && c <= 'z') {
                c = (char) (c - 'a' + 'A');
            }
            out.append(c);
        }
        return out.toString();
    }

    private static boolean isPalindrome(String text) {
        return text.equals(new StringBuilder(text).reverse().toString());
    }

    private static int count(String text, String part) {
        int count = 0;
        String rest = text;
        int at = rest.indexOf(part);
        while (at >= 0) {
            count++;
            rest = rest.substring(at + part.length());
            at = rest.indexOf(part);
        }
        return count;
    }

    private static String digits(long number) {
        String plain = "" + Math.abs(number);
        StringBuilder out = new StringBuilder();
        for (int i = 0; i < plain.length(); i++) {
            if (COMMAS && i > 0 && (plain.length() - i) % 3 == 0) {
                out.append(',');
            }
            out.append(plain.charAt(i));
        }
        return number < 0 ? "-" + out : out.toString();
    }

    private static String kind(String word) {
        switch (word) {
            case "level":
            case "LEVEL":
                return "both ways";
            case "Aa":
                return "first";
            case "BB":
                return "second of the same hash";
            default:
                return word.startsWith("mis") || word.endsWith("ppi") ? "river" : "other";
        }
    }

    public static void main(String[] arguments) {
        String[] words = {"level", "mississippi", "Aa", "BB", "\u00e9t\u00e9", ""};
        for (String word : words) {
            String text = UPPER ? upper(word) : word;
            if (REVERSE) {
                text = new StringBuilder(text).reverse().toString();
            }
            if (SHORT && text.length() > 4) {
                text = text.substring(0, 3).concat("~");
            }
            System.out.println(text + ":" + kind(text) + ":" + isPalindrome(text) + ":" + count(text, "ss"));
        }
        System.out.println(digits(1234567));
        System.out.println(digits(-999L));
        System.out.println(digits(9007199254740993L));
        System.out.println(words[0].compareTo(words[1]) + " " + words[2].hashCode() + " " + words[3].hashCode());
        char[] letters = words[1].toCharArray();
        letters[0] = 'M';
        System.out.println(letters);
        System.out.println(String.valueOf(letters).isEmpty() + " " + (String) null);
        StringBuilder cut = new StringBuilder("abcdef");
        cut.setLength(SHORT ? 2 : 4);
        cut.deleteCharAt(0);
        System.out.println(cut);
        if (SHORT && REVERSE && COMMAS) {
            System.out.println("abc".substring(2, 1));
        }
    }
}
