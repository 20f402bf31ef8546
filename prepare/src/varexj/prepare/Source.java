package varexj.prepare;

import java.util.Arrays;
import java.util.List;

/** Where a program takes an option from: `KIND:WHAT` or `KIND:WHAT=TEXT`. */
final class Source {
    static final String OPTIONS = "varexj/Options";
    private static final List<String> KINDS = Arrays.asList("field", "property", "env", "argument", "call");

    final String option;
    final String kind;
    final String what;
    /** The text behind the equals sign, or null. */
    final String text;

    private Source(String option, String kind, String what, String text) {
        this.option = option;
        this.kind = kind;
        this.what = what;
        this.text = text;
    }

    static Source read(String word) {
        String option = before(word, "--option");
        String spelled = behind(word);
        int colon = spelled.indexOf(':');
        String kind = colon < 0 ? "" : spelled.substring(0, colon);
        if (!option.matches("[A-Za-z_][A-Za-z0-9_]{0,63}") || option.equals("true") || option.equals("false") || !KINDS.contains(kind)) {
            throw new Refusal(Refusal.USAGE, "no option and source: " + word + "; a source is field:, property:, env:, argument: or call:");
        }
        String rest = spelled.substring(colon + 1);
        int equals = kind.equals("argument") || kind.equals("field") ? -1 : rest.indexOf('=');
        return new Source(option, kind, equals < 0 ? rest : rest.substring(0, equals), equals < 0 ? null : rest.substring(equals + 1));
    }

    /** The part of KEY=TEXT before the first equals sign. */
    static String before(String word, String of) {
        int at = word.indexOf('=');
        if (at <= 0) {
            throw new Refusal(Refusal.USAGE, of + " wants NAME=TEXT, and not " + word);
        }
        return word.substring(0, at);
    }

    static String behind(String word) {
        return word.substring(word.indexOf('=') + 1);
    }

    /** The class of a source that names a member. */
    String owner() {
        int dot = what.replace('/', '.').lastIndexOf('.');
        if (dot <= 0) {
            throw new Refusal(Refusal.USAGE, kind + ":" + what + " wants CLASS.NAME");
        }
        return what.substring(0, dot).replace('.', '/');
    }

    String member() {
        return what.substring(what.replace('/', '.').lastIndexOf('.') + 1);
    }

    /** The class and the field that hold the option, as a model names them. */
    String binding() {
        return kind.equals("field") ? owner() + " " + member() : OPTIONS + " " + option;
    }

    @Override
    public String toString() {
        return kind + " " + what + (text == null ? "" : "=" + text);
    }
}
