import java.util.Arrays;

/** Joined texts, and members of texts. */
public class Main {
    static boolean WIDE;
    static boolean NULL;

    static int asked;

    static class Counting {
        @Override
        public String toString() {
            asked++;
            return NULL ? null : "counted" + asked;
        }
    }

    public static void main(String[] args) {
        String name = WIDE ? "wide \u00e9\u4e2d" : "name";
        char unit = 'c';
        long number = WIDE ? 1L << 40 : -3;
        byte small = -7;
        short middle = 300;
        boolean flag = NULL;
        Object nothing = null;
        int[] marks = {1, 2};
        System.out.println("a" + name + unit + number + small + middle + flag + nothing + marks.length + 'x' + 5);
        System.out.println("\u0001 is \u0002" + name + "\u0001\u0002" + number);
        Counting counting = new Counting();
        System.out.println(counting + " then " + counting + asked);
        String sum = "";
        sum += unit;
        sum += 3;
        sum += nothing;
        System.out.println(sum);
        String text = "  Some Text, more text;end ";
        System.out.println(text.trim() + "|" + text.replace('e', 'E') + "|" + text.replace("text", "word") + "|" + text.contains("more"));
        System.out.println(Arrays.toString("a,b,,c".split(",")) + text.indexOf("ext", 9) + text.lastIndexOf('e') + text.toUpperCase() + text.toLowerCase());
        System.out.println(String.join("-", "x", "y", name) + String.valueOf(new char[] {'o', 'k'}) + "abc".equalsIgnoreCase("ABC") + "ab".repeat(2) + " ".isBlank());
        System.out.println(String.format("%5d|%-4s|%x|%c|%b|%%|%04d", 42, "ab", 255, 'q', true, 7));
        StringBuilder builder = new StringBuilder("start");
        builder.insert(0, "re").append(new char[] {'!', '?'}).delete(1, 3).setCharAt(0, 'R');
        System.out.println(builder + " " + builder.indexOf("a") + builder.substring(2) + builder.reverse());
        System.out.println(new String(new char[] {'a', 'b', 'c', 'd'}, 1, 2) + Integer.toHexString(-1) + Integer.parseInt("-7f", 16) + Long.parseLong("123456789012"));
        System.out.println(Character.isDigit('7') + " " + Character.toUpperCase('q') + Character.isLetter('_') + Character.valueOf('z') + Integer.valueOf(77).hashCode());
        System.out.println(String.CASE_INSENSITIVE_ORDER.compare("abc", "ABD") < 0);
        System.out.println("b".compareTo("abc") + "Hash".hashCode() + text.strip().length());
    }
}
