package varexj.prepare;

import java.util.ArrayList;
import java.util.Arrays;
import java.util.LinkedHashMap;
import java.util.LinkedHashSet;
import java.util.List;
import java.util.Map;
import java.util.Set;

/** What the words of a call say. */
final class Words {
    static final String USAGE = "usage: prepare --out FOLDER [--main CLASS] [--model MODEL] [--model-out FILE] [--option NAME=SOURCE].. [--set KEY=TEXT]..\n"
            + "               [--argument WORD].. [--loose WHAT].. [--trim] [--all] IN..\n"
            + "       prepare --check [..the same without --out] IN..";
    private static final List<String> LOOSE = Arrays.asList("integer-identity", "concurrent", "clock");

    boolean check;
    boolean all;
    boolean trim;
    String out;
    String main;
    String model;
    String modelOut;
    final List<Source> options = new ArrayList<>();
    final Map<String, String> settings = new LinkedHashMap<>();
    /** The words of arguments, and options whose source is an argument, in the order of the call. */
    final List<Object> arguments = new ArrayList<>();
    final Set<String> loose = new LinkedHashSet<>();
    final List<String> in = new ArrayList<>();

    static Words read(String[] args) {
        Words words = new Words();
        for (int at = 0; at < args.length; at++) {
            String word = args[at];
            if (word.equals("--check")) {
                words.check = true;
            } else if (word.equals("--all")) {
                words.all = true;
            } else if (word.equals("--trim")) {
                words.trim = true;
            } else if (!word.startsWith("--")) {
                words.in.add(word);
            } else if (at + 1 == args.length) {
                throw new Refusal(Refusal.USAGE, word + " wants a word behind it\n" + USAGE);
            } else {
                words.take(word, args[++at]);
            }
        }
        if (words.in.isEmpty() || words.check == (words.out != null)) {
            throw new Refusal(Refusal.USAGE, USAGE);
        }
        return words;
    }

    private void take(String word, String value) {
        switch (word) {
            case "--out":
                out = value;
                break;
            case "--main":
                main = value.replace('.', '/');
                break;
            case "--model":
                model = value;
                break;
            case "--model-out":
                modelOut = value;
                break;
            case "--option":
                option(Source.read(value));
                break;
            case "--set":
                settings.put(Source.before(value, word), Source.behind(value));
                break;
            case "--argument":
                arguments.add(value);
                break;
            case "--loose":
                if (!LOOSE.contains(value)) {
                    throw new Refusal(Refusal.USAGE, "--loose takes one of " + String.join(", ", LOOSE));
                }
                loose.add(value);
                break;
            default:
                throw new Refusal(Refusal.USAGE, "no such word: " + word + "\n" + USAGE);
        }
    }

    private void option(Source source) {
        for (Source other : options) {
            if (other.option.equals(source.option)) {
                throw new Refusal(Refusal.USAGE, "option " + source.option + " has two sources");
            }
        }
        options.add(source);
        if (source.kind.equals("argument")) {
            arguments.add(source);
        }
    }
}
