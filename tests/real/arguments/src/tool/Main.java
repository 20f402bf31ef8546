package tool;

import java.util.ArrayList;
import java.util.List;

/** Settings from the words of a call, and from methods. */
public final class Main {
    /** What other settings there are. */
    static final class Features {
        private Features() {
        }

        static boolean has(String name) {
            return Boolean.getBoolean("feature." + name);
        }

        static boolean isDark() {
            try {
                return Boolean.getBoolean("dark");
            } catch (IllegalStateException e) {
                return false;
            }
        }
    }

    private Main() {
    }

    public static void main(String[] args) {
        List<String> files = new ArrayList<>();
        boolean verbose = false;
        int depth = 0;
        for (int at = 0; at < args.length; at++) {
            if (args[at].equals("-v")) {
                verbose = true;
            } else if (args[at].startsWith("--depth=")) {
                depth = Integer.parseInt(args[at].substring(8));
            } else {
                files.add(args[at]);
            }
        }
        System.out.println(files + " " + verbose + " " + depth + " " + args.length);
        for (String name : new String[] {"log", "zip", "mail"}) {
            if (Features.has(name)) {
                System.out.println("with " + name);
            }
        }
        System.out.println(Features.isDark() ? "dark" : "light");
    }
}
