import java.nio.file.Files;
import java.nio.file.Paths;
import java.util.ArrayList;
import java.util.List;
import java.util.Locale;
import java.util.function.IntPredicate;
import java.util.function.IntUnaryOperator;

/**
 * Writes the class of the library that knows what is said of each code point, from what the Java machine that runs this says.
 *
 *   java MakeCharacterTables.java FILE
 */
public final class MakeCharacterTables {
    private static final int PLANES = 17;
    private static final StringBuilder TEXT = new StringBuilder();

    private static void line(String line) {
        TEXT.append(line).append('\n');
    }

    /** A constant text, in lines. */
    private static String constant(List<Integer> units) {
        StringBuilder text = new StringBuilder();
        for (int at = 0; at < units.size(); at++) {
            if (at % 20 == 0) {
                text.append(at == 0 ? "\"" : "\"\n                        + \"");
            }
            int unit = units.get(at);
            boolean plain = unit >= 32 && unit < 127 && unit != '"' && unit != '\\';
            text.append(plain ? String.valueOf((char) unit) : String.format(unit < 127 ? "\\%03o" : "\\u%04x", unit));
        }
        return text.append('"').toString();
    }

    /** A method that gives for each code point the value of the run in which it is. */
    private static void runs(String doc, String name, IntUnaryOperator value) {
        line("");
        line("    /** " + doc + " */");
        line("    public static int " + name + "(int point) {");
        line("        switch (point >>> 16) {");
        for (int plane = 0; plane < PLANES; plane++) {
            List<Integer> starts = new ArrayList<>();
            List<Integer> values = new ArrayList<>();
            for (int at = 0; at < 0x10000; at++) {
                int now = value.applyAsInt(plane << 16 | at);
                if (at == 0 || now != values.get(values.size() - 1)) {
                    starts.add(at);
                    values.add(now);
                }
            }
            if (starts.size() > 1 || values.get(0) != 0) {
                line("            case " + plane + ":");
                if (starts.size() == 1) {
                    line("                return " + values.get(0) + ";");
                } else {
                    line("                return run(" + constant(starts) + ",");
                    line("                        " + constant(values) + ", point);");
                }
            }
        }
        line("            default:");
        line("                return 0;");
        line("        }");
        line("    }");
    }

    /** A method that says whether a code point is in a set. */
    private static void set(String doc, String name, IntPredicate holds) {
        line("");
        line("    /** " + doc + " */");
        line("    public static boolean " + name + "(int point) {");
        line("        switch (point >>> 16) {");
        for (int plane = 0; plane < PLANES; plane++) {
            List<Integer> edges = new ArrayList<>();
            edges.add(0);
            for (int at = 0; at < 0x10000; at++) {
                if (holds.test(plane << 16 | at) != (edges.size() % 2 == 0)) {
                    edges.add(at);
                }
            }
            if (edges.size() > 1) {
                line("            case " + plane + ":");
                line("                return (last(" + constant(edges) + ", point) & 1) == 1;");
            }
        }
        line("            default:");
        line("                return false;");
        line("        }");
        line("    }");
    }

    /** A method that maps a code point, by stretches of each or of each second one that go as far. */
    private static void map(String doc, String name, IntUnaryOperator to) {
        line("");
        line("    /** " + doc + " */");
        line("    public static int " + name + "(int point) {");
        line("        switch (point >>> 16) {");
        for (int plane = 0; plane < PLANES; plane++) {
            List<Integer> starts = new ArrayList<>(List.of(0));
            List<Integer> ends = new ArrayList<>(List.of(0));
            List<Integer> moves = new ArrayList<>(List.of(0));
            int at = 0;
            while (at < 0x10000) {
                int move = move(to, plane << 16 | at);
                if (move == 0) {
                    at++;
                    continue;
                }
                int step = 0;
                int last = at;
                while (true) {
                    if (step != 2 && last + 1 < 0x10000 && move(to, plane << 16 | last + 1) == move) {
                        step = 1;
                        last++;
                    } else if (step != 1 && last + 2 < 0x10000 && move(to, plane << 16 | last + 1) == 0 && move(to, plane << 16 | last + 2) == move) {
                        step = 2;
                        last += 2;
                    } else {
                        break;
                    }
                }
                starts.add(at);
                ends.add(last * 2 + (step == 2 ? 1 : 0));
                moves.add(move & 0xFFFF);
                at = last + 1;
            }
            if (starts.size() > 1) {
                List<Integer> lasts = new ArrayList<>();
                List<Integer> steps = new ArrayList<>();
                for (int end : ends) {
                    lasts.add(end >> 1);
                    steps.add(end & 1);
                }
                line("            case " + plane + ":");
                line("                return moved(" + constant(starts) + ",");
                line("                        " + constant(lasts) + ",");
                line("                        " + constant(steps) + ",");
                line("                        " + constant(moves) + ", point);");
            }
        }
        line("            default:");
        line("                return point;");
        line("        }");
        line("    }");
    }

    private static int move(IntUnaryOperator to, int point) {
        int move = to.applyAsInt(point) - point;
        if (move != 0 && (to.applyAsInt(point) >>> 16) != (point >>> 16)) {
            throw new IllegalStateException("another plane");
        }
        return move;
    }

    /** The start of the run of numbers that go up, in which a code point is: its number and 2, else 0 for none and 1 for no whole one. */
    private static int numeric(int point) {
        int number = Character.getNumericValue(point);
        return number < 0 ? number == -1 ? 0 : 1 : number + 2;
    }

    private static boolean isLong(int point) {
        if (point >= 0xD800 && point <= 0xDFFF) {
            return false;
        }
        String text = new String(Character.toChars(point));
        return !text.toUpperCase(Locale.ROOT).equals(new String(Character.toChars(Character.toUpperCase(point))));
    }

    /** The numbers of code points: stretches that go up by one, and where they begin. */
    private static void numbers() {
        line("");
        line("    /** The number of a code point, -1 for none, -2 for one that is no whole number from 0 on. */");
        line("    public static int number(int point) {");
        line("        switch (point >>> 16) {");
        for (int plane = 0; plane < PLANES; plane++) {
            List<Integer> starts = new ArrayList<>();
            List<Integer> high = new ArrayList<>();
            List<Integer> low = new ArrayList<>();
            int before = Integer.MIN_VALUE;
            for (int at = 0; at < 0x10000; at++) {
                int now = numeric(plane << 16 | at);
                boolean goes = now < 2 ? now == before : before >= 2 && now == before + 1;
                if (at == 0 || !goes) {
                    starts.add(at);
                    high.add(now >>> 16);
                    low.add(now & 0xFFFF);
                }
                before = now;
            }
            if (starts.size() > 1) {
                line("            case " + plane + ":");
                line("                return counted(" + constant(starts) + ",");
                line("                        " + constant(high) + ",");
                line("                        " + constant(low) + ", point);");
            }
        }
        line("            default:");
        line("                return -1;");
        line("        }");
        line("    }");
    }

    public static void main(String[] words) throws Exception {
        line("package varexj.lang;");
        line("");
        line("/**");
        line(" * What is said of each code point, in runs of code points that have it in common. Written by tests/units/MakeCharacterTables.java from what a Java");
        line(" * machine of release " + System.getProperty("java.specification.version") + " says; not to be edited.");
        line(" */");
        line("public final class CharacterTables {");
        line("    private CharacterTables() {");
        line("    }");
        line("");
        line("    /** The place of the last of ascending units that isn't above the low half of a code point; the first one is 0. */");
        line("    private static int last(String starts, int point) {");
        line("        int unit = point & 0xFFFF;");
        line("        int low = 0;");
        line("        int high = starts.length();");
        line("        while (high - low > 1) {");
        line("            int middle = low + high >>> 1;");
        line("            if (starts.charAt(middle) <= unit) {");
        line("                low = middle;");
        line("            } else {");
        line("                high = middle;");
        line("            }");
        line("        }");
        line("        return low;");
        line("    }");
        line("");
        line("    private static int run(String starts, String values, int point) {");
        line("        return values.charAt(last(starts, point));");
        line("    }");
        line("");
        line("    private static int moved(String starts, String ends, String steps, String moves, int point) {");
        line("        int at = last(starts, point);");
        line("        int unit = point & 0xFFFF;");
        line("        if (unit > ends.charAt(at) || (unit - starts.charAt(at) & steps.charAt(at)) != 0) {");
        line("            return point;");
        line("        }");
        line("        return point & 0xFFFF0000 | unit + moves.charAt(at) & 0xFFFF;");
        line("    }");
        line("");
        line("    private static int counted(String starts, String highs, String lows, int point) {");
        line("        int at = last(starts, point);");
        line("        int first = highs.charAt(at) << 16 | lows.charAt(at);");
        line("        return first == 0 ? -1 : first == 1 ? -2 : first - 2 + (point & 0xFFFF) - starts.charAt(at);");
        line("    }");
        runs("The general category of a code point, as a number of Character; 0 for an integer that is no code point.", "category", Character::getType);
        map("The code point in upper case.", "upper", Character::toUpperCase);
        map("The code point in lower case.", "lower", Character::toLowerCase);
        map("The code point in title case.", "title", Character::toTitleCase);
        set("Whether it counts as upper case without being an upper case letter.", "isOtherUpper",
                point -> Character.isUpperCase(point) && Character.getType(point) != Character.UPPERCASE_LETTER);
        set("Whether it counts as lower case without being a lower case letter.", "isOtherLower",
                point -> Character.isLowerCase(point) && Character.getType(point) != Character.LOWERCASE_LETTER);
        set("Whether it is alphabetic and neither a letter nor a letter number.", "isOtherAlphabetic",
                point -> Character.isAlphabetic(point) && !Character.isLetter(point) && Character.getType(point) != Character.LETTER_NUMBER);
        set("Whether it is an ideograph.", "isIdeographic", Character::isIdeographic);
        set("Whether it is mirrored.", "isMirrored", Character::isMirrored);
        set("Whether it may start an identifier of Unicode.", "startsIdentifier", Character::isUnicodeIdentifierStart);
        set("Whether it may be part of an identifier of Unicode.", "isInIdentifier", Character::isUnicodeIdentifierPart);
        set("Whether its upper case in a text is not one code point.", "hasLongUpper", MakeCharacterTables::isLong);
        numbers();
        line("}");
        Files.writeString(Paths.get(words[0]), TEXT);
    }
}
