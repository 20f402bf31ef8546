/** A message of more than one line and of letters beyond ASCII. */
class Umlauts {
    public static void main(String[] words) {
        throw new Error("f\u00fcr\n\tzwei \u20ac \ud83d\ude00");
    }
}
