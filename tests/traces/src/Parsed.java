/** What a method of the library raises; its own frames are not told. */
class Parsed {
    static int number(String text) {
        return Integer.parseInt(text.substring(1));
    }

    public static void main(String[] words) {
        System.out.println(number("x12"));
        System.out.println(number("12x"));
    }
}
