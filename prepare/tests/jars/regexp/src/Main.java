import org.apache.regexp.RE;

/** Patterns that are put together by options. */
public class Main {
    static boolean STAR, GROUP, ALT, ANCHOR, CLASS, CASE, LAZY;

    public static void main(String[] args) {
        String pattern = (ANCHOR ? "^" : "") + (GROUP ? "(a" : "a") + (STAR ? "*" : "+") + (LAZY ? "?" : "") + (GROUP ? ")" : "")
                + (ALT ? "(b|cd)" : "b") + (CLASS ? "[x-z0-9]*" : "");
        RE re = new RE(pattern, CASE ? RE.MATCH_CASEINDEPENDENT : RE.MATCH_NORMAL);
        for (String text : new String[] {"aab", "xaacdz9", "AB", "b", "aaab12y"}) {
            boolean found = re.match(text);
            System.out.print(text + " " + found);
            if (found) {
                System.out.print(" " + re.getParen(0) + " " + re.getParenStart(0) + " " + re.getParenCount());
            }
            System.out.println();
        }
        System.out.println(re.subst("zaabz", "-"));
    }
}
