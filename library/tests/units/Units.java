import java.lang.reflect.Array;
import java.lang.reflect.Constructor;
import java.lang.reflect.Executable;
import java.lang.reflect.InvocationTargetException;
import java.lang.reflect.Method;
import java.lang.reflect.Modifier;
import java.util.ArrayList;
import java.util.Arrays;
import java.util.List;
import java.util.Map;
import java.util.Random;
import java.util.TreeMap;

/**
 * Compares the renamed library, call by call, with the class library of the Java machine that runs this.
 *
 *   java Units SEED ROUNDS
 *
 * Each public member of a companion, of a box and of StringBuffer that the Java machine has too is called with the same values on both sides, ROUNDS times with
 * random ones, and each member of Character with each unit and each code point. Results, exceptions and the builder afterwards are equal, but where the library says that it
 * doesn't know. A line tells how many calls there were, and how many were not known.
 */
public final class Units {
    private static final String[] COMPANIONS = {"String", "StringBuilder", "Integer", "Boolean", "Math", "CharSequence", "Number"};
    /** Companions of which only the types are compared. */
    private static final String[] TYPES = {"java.lang.Enum", "java.lang.Class", "java.lang.Throwable", "java.lang.System", "java.lang.Iterable", "java.util.Iterator", "java.io.PrintStream"};
    private static final String[] CLASSES = {"Long", "Short", "Byte", "Character", "StringBuffer"};
    private static final String[] TEXTS = {"", "a", "ab", "abc", "AbC", "aabab", "  padded ", "\tx\n", "one,two,,three,,", "12", "-7", "+0", "0x1F", "#ff", "-010", "2147483648", "-2147483648",
        "9223372036854775807", "zz", "\u00c4\u00df\u00e9", "\u0391\u03c9", "\u03a3\u03c3\u03c2", "\u0130i", "\u01c5x", "\ud83d\ude00!", "\ud83d", "\u2003 \u00a0", "a  b \t c", "true", "TRUE", "False", "null",
        "x=1;y=2;", "a.b.c", "p|q", "$1", "a\\b", "%d %s", "\u0660\u0661", "fi\ufb01", "\u212a", "127", "128", "-129", "32768", "18446744073709551615"};
    private static final String[] EXPRESSIONS = {",", ";", " ", "\\.", "\\|", "\\s+", "\\s*,\\s*", ", *", "[,;]", "[a-c]+", "[^a-z]", "", "ab", "x=", "\\d+", "\\w", "\\W+", "a|b", ".", "(a)", "a*b", "a*", "\\s", "=", "a+b?", "[abc", "\\$"};
    private static final String[] PATTERNS = {"%s", "%d", "%5d|", "%-5d|", "%05d", "%+d", "% d", "%(d", "%,d", "%x", "%X", "%#x", "%08x", "%o", "%#o", "%c", "%C", "%b", "%B", "%S", "%10s|", "%-10s|", "%.2s", "%5.1s|", "%n", "%%",
        "%5%|", "%-5%|", "a%sb%sc", "%2$s %1$s", "%s %<s", "%1$d %d", "%h", "%H", "%,(10d", "%-,8d|", "text", "", "%d%%%n", "%+,d", "%f", "%y", "%", "%-d", "%0d", "%#d", "%q", "%.3d", "%10.3b|"};

    private static Random random;
    private static int calls;
    private static int unknown;
    private static int failed;
    private static final Map<String, Integer> TOLD = new TreeMap<>();
    private static final Map<String, Integer> SILENT = new TreeMap<>();

    private static Class<?> library(String name) throws ClassNotFoundException {
        return Class.forName(name);
    }

    // ---- values

    private static int number() {
        switch (random.nextInt(6)) {
            case 0:
                return random.nextInt();
            case 1:
                return random.nextInt(200) - 100;
            case 2:
                return new int[] {Integer.MIN_VALUE, Integer.MAX_VALUE, -1, 0, 1, 127, 128, -128, -129, 32767, 32768, 65535, 65536, 0x10FFFF, 0x110000, 0x1F600}[random.nextInt(16)];
            default:
                return random.nextInt(8) - 1;
        }
    }

    private static long longNumber() {
        switch (random.nextInt(4)) {
            case 0:
                return random.nextLong();
            case 1:
                return new long[] {Long.MIN_VALUE, Long.MAX_VALUE, -1, 0, 1, 127, 128, -128, -129, 1L << 31, -(1L << 31), 1L << 32, 3037000500L, -3037000500L}[random.nextInt(14)];
            default:
                return number();
        }
    }

    private static String text() {
        if (random.nextInt(3) > 0) {
            return TEXTS[random.nextInt(TEXTS.length)];
        }
        StringBuilder text = new StringBuilder();
        for (int left = random.nextInt(8); left > 0; left--) {
            text.append("aabbAB ,.-1\u00e9\u00c9".charAt(random.nextInt(13)));
        }
        return text.toString();
    }

    private static char unit() {
        return random.nextInt(3) > 0 ? "aAbB ,.-0%\u00e9\u0391".charAt(random.nextInt(12)) : (char) random.nextInt(0x10000);
    }

    /** A value for a parameter: as the Java machine takes it, and as the library takes it. */
    private static Object[] value(Class<?> type, String member, int place) throws ReflectiveOperationException {
        Object both;
        if (type == int.class) {
            both = number();
        } else if (type == long.class) {
            both = longNumber();
        } else if (type == short.class) {
            both = (short) number();
        } else if (type == byte.class) {
            both = (byte) number();
        } else if (type == char.class) {
            both = unit();
        } else if (type == boolean.class) {
            both = random.nextBoolean();
        } else if (type == String.class) {
            boolean expression = place == 1 && (member.equals("split") || member.equals("matches") || member.equals("replaceAll") || member.equals("replaceFirst"));
            both = expression ? EXPRESSIONS[random.nextInt(EXPRESSIONS.length)] : place == 0 && member.startsWith("format") ? PATTERNS[random.nextInt(PATTERNS.length)] : random.nextInt(40) == 0 ? null : text();
        } else if (type == CharSequence.class) {
            both = random.nextInt(30) == 0 ? null : random.nextBoolean() ? text() : new StringBuilder(text());
        } else if (type == char[].class) {
            return random.nextInt(30) == 0 ? new Object[2] : copies(text().toCharArray());
        } else if (type == byte[].class) {
            both = text().getBytes(java.nio.charset.StandardCharsets.UTF_8);
        } else if (type == int[].class) {
            both = new int[] {'a', 0x1F600, number() & 0xFFFF, 'z'};
        } else if (type == CharSequence[].class) {
            both = new CharSequence[] {text(), text(), null};
        } else if (type == Object[].class) {
            return objects();
        } else if (type == Iterable.class) {
            both = List.of(text(), text());
        } else if (type == Integer.class || type == Number.class) {
            both = number();
        } else if (type == Boolean.class) {
            both = random.nextBoolean();
        } else if (type == StringBuilder.class) {
            String text = text();
            return new Object[] {new StringBuilder(text), new StringBuilder(text)};
        } else if (type == Object.class) {
            return object();
        } else if (type.getName().startsWith("renamed.java.lang.")) {
            return box(type.getSimpleName());
        } else {
            return null;
        }
        return new Object[] {both, both};
    }

    private static Object[] copies(char[] units) {
        return new Object[] {units, units.clone()};
    }

    private static Object[] objects() throws ReflectiveOperationException {
        int count = random.nextInt(4);
        Object[] left = new Object[count];
        Object[] right = new Object[count];
        for (int at = 0; at < count; at++) {
            Object[] both = object();
            left[at] = both[0];
            right[at] = both[1];
        }
        return new Object[] {left, right};
    }

    private static Object[] object() throws ReflectiveOperationException {
        switch (random.nextInt(8)) {
            case 0:
                return new Object[2];
            case 1:
                return box("Long");
            case 2:
                return box("Character");
            case 3:
                return box(random.nextBoolean() ? "Short" : "Byte");
            case 4:
                return new Object[] {true, true};
            case 5:
                String text = text();
                return new Object[] {text, text};
            default:
                int number = number();
                return new Object[] {number, number};
        }
    }

    private static Object[] box(String name) throws ReflectiveOperationException {
        Class<?> here = library("renamed.java.lang." + name);
        Class<?> there = library("java.lang." + name);
        Class<?> inside = name.equals("Long") ? long.class : name.equals("Short") ? short.class : name.equals("Byte") ? byte.class : name.equals("Character") ? char.class : String.class;
        Object value = value(inside, "", -1)[0];
        value = value == null ? "" : value;
        return new Object[] {there.getConstructor(inside).newInstance(value), here.getConstructor(inside).newInstance(value)};
    }

    // ---- comparing

    private static String shown(Object value) {
        if (value == null) {
            return "null";
        }
        if (value.getClass().isArray()) {
            StringBuilder text = new StringBuilder("[");
            for (int at = 0; at < Array.getLength(value); at++) {
                text.append(shown(Array.get(value, at))).append(", ");
            }
            return text + "]";
        }
        return value instanceof CharSequence || value.getClass().getName().endsWith("StringBuffer") ? "\"" + value + "\"" : value.toString();
    }

    private static String outcome(Executable member, Object receiver, Object[] values) throws ReflectiveOperationException {
        try {
            Object result = member instanceof Constructor ? ((Constructor<?>) member).newInstance(values) : ((Method) member).invoke(receiver, values);
            return shown(result) + " " + shown(receiver) + " " + shown(values);
        } catch (InvocationTargetException e) {
            Throwable thrown = e.getCause();
            if (thrown instanceof UnsatisfiedLinkError) {
                return null;
            }
            return thrown.getClass().getName().replace("renamed.", "") + " " + shown(receiver) + " " + shown(values);
        }
    }

    private static Class<?> theirs(Class<?> type) throws ClassNotFoundException {
        return type.getName().startsWith("renamed.") ? library(type.getName().substring("renamed.".length())) : type;
    }

    private static Executable find(Class<?> there, Class<?> core, Executable ours, boolean companion, boolean[] withReceiver) throws ClassNotFoundException {
        Class<?>[] types = ours.getParameterTypes();
        for (int at = 0; at < types.length; at++) {
            types[at] = theirs(types[at]);
        }
        try {
            if (ours instanceof Constructor || companion && ours.getName().equals("init")) {
                return there.getConstructor(types);
            }
            Method found = there.getMethod(ours.getName(), types);
            if (!companion || Modifier.isStatic(found.getModifiers())) {
                return found;
            }
        } catch (NoSuchMethodException e) {
            // it may be a method of the object
        }
        try {
            if (companion && types.length > 0 && types[0] == there) {
                withReceiver[0] = true;
                return there.getMethod(ours.getName(), Arrays.copyOfRange(types, 1, types.length));
            }
        } catch (NoSuchMethodException e) {
            return null;
        }
        return null;
    }

    private static void compare(Class<?> there, Executable ours, boolean companion, int rounds) throws ReflectiveOperationException {
        boolean[] withReceiver = new boolean[1];
        Executable theirs = find(there, there, ours, companion, withReceiver);
        String name = there.getSimpleName() + "." + ours.getName();
        if (theirs == null || ours.getName().equals("capacity") || ours.getName().equals("intern") || ours.getName().equals("getInteger") || ours.getName().equals("getBoolean") || ours.getName().equals("getLong")) {
            SILENT.merge(name, 1, Integer::sum);
            return;
        }
        if (theirs instanceof Method && ours instanceof Method && !ours.getName().equals("init") && theirs(((Method) ours).getReturnType()) != ((Method) theirs).getReturnType()) {
            failed++;
            System.out.println(ours + " gives another type than " + theirs);
        }
        Class<?>[] types = ours.getParameterTypes();
        boolean instance = !companion && ours instanceof Method && !Modifier.isStatic(ours.getModifiers());
        for (int round = 0; round < rounds; round++) {
            Object[] left = new Object[types.length];
            Object[] right = new Object[types.length];
            for (int at = 0; at < types.length; at++) {
                Object[] both = value(types[at], ours.getName(), at);
                if (both == null) {
                    SILENT.merge(name, 1, Integer::sum);
                    return;
                }
                left[at] = both[0];
                right[at] = both[1];
            }
            if (withReceiver[0] && left[0] == null || ours.getName().equals("repeat") && (int) left[1] > 100000) {
                continue;
            }
            if (ours.getName().equals("setLength") && (int) left[0] > 100000 || ours.getName().equals("ensureCapacity") || ours instanceof Constructor && types.length == 1 && types[0] == int.class) {
                continue;
            }
            Object[] receivers = instance ? box(there.getSimpleName()) : new Object[2];
            String before = shown(receivers[0]) + " " + shown(left);
            if (theirs instanceof Constructor && ours instanceof Method && receivers[0] == null && left[0] == null) {
                continue;
            }
            String expected = withReceiver[0] ? outcome(theirs, left[0], Arrays.copyOfRange(left, 1, left.length)) : outcome(theirs, receivers[0], left);
            String found = withReceiver[0] ? outcome(ours, null, right) : outcome(ours, receivers[1], right);
            if (withReceiver[0] && found != null) {
                // the receiver stands among the values of the library's form
                expected = expected.replaceFirst(" \\Q" + shown(left[0]) + "\\E \\[", " null [" + java.util.regex.Matcher.quoteReplacement(shown(left[0])) + ", ");
            }
            calls++;
            if (found == null) {
                unknown++;
            } else if (!found.equals(expected)) {
                failed++;
                tell(ours, before, found, expected);
            }
        }
    }

    private static void tell(Executable member, String values, String found, String expected) {
        if (TOLD.merge(member.toString(), 1, Integer::sum) <= 2) {
            System.out.println(member + "\n  of " + values + "\n  is " + found + "\n  not " + expected);
        }
    }

    private static void compareEachUnit() throws ReflectiveOperationException {
        Class<?> ours = library("renamed.java.lang.Character");
        for (Method method : ours.getMethods()) {
            Class<?>[] types = method.getParameterTypes();
            boolean unit = types.length >= 1 && types[0] == char.class;
            boolean point = types.length >= 1 && types[0] == int.class;
            boolean radix = types.length == 2 && types[1] == int.class && method.getName().equals("digit");
            if (!Modifier.isStatic(method.getModifiers()) || Modifier.isNative(method.getModifiers()) || !unit && !point || types.length > 1 && !radix || method.getReturnType() == ours) {
                continue;
            }
            Method theirs = Character.class.getMethod(method.getName(), types);
            int last = unit ? 0xFFFF : 0x110010;
            for (int at = unit ? 0 : -20; at <= last; at++) {
                Object value = unit ? (Object) (char) at : (Object) at;
                Object[] values = radix ? new Object[] {value, 36} : new Object[] {value};
                calls++;
                String found = result(method, values);
                String expected = result(theirs, values);
                if (found.equals("java.lang.UnsatisfiedLinkError")) {
                    unknown++;
                } else if (!found.equals(expected)) {
                    failed++;
                    tell(method, String.valueOf(at), found, expected);
                }
            }
        }
    }

    private static String result(Method method, Object[] values) throws ReflectiveOperationException {
        try {
            Object result = method.invoke(null, values);
            return result instanceof char[] ? new String((char[]) result) : String.valueOf(result);
        } catch (InvocationTargetException e) {
            return e.getCause().getClass().getName();
        }
    }

    private static void compareCompanion(Class<?> there, int rounds) throws ReflectiveOperationException {
        List<Method> methods = new ArrayList<>(Arrays.asList(library("varexj.lang." + there.getSimpleName() + "Members").getDeclaredMethods()));
        methods.sort((left, right) -> left.toString().compareTo(right.toString()));
        for (Method method : methods) {
            if (Modifier.isPublic(method.getModifiers())) {
                compare(there, method, true, rounds);
            }
        }
    }

    public static void main(String[] words) throws ReflectiveOperationException {
        random = new Random(Long.parseLong(words[0]));
        int rounds = Integer.parseInt(words[1]);
        for (String name : COMPANIONS) {
            compareCompanion(library("java.lang." + name), rounds);
        }
        for (String name : TYPES) {
            compareCompanion(library(name), 0);
        }
        for (String name : CLASSES) {
            Class<?> ours = library("renamed.java.lang." + name);
            List<Executable> members = new ArrayList<>(Arrays.asList(ours.getDeclaredMethods()));
            members.addAll(Arrays.asList(ours.getConstructors()));
            members.sort((left, right) -> left.toString().compareTo(right.toString()));
            for (Executable member : members) {
                if (Modifier.isPublic(member.getModifiers()) && !member.isSynthetic()) {
                    compare(library("java.lang." + name), member, false, rounds);
                }
            }
        }
        int random = calls;
        compareEachUnit();
        System.out.println("not compared: " + SILENT.keySet());
        System.out.println(random + " random calls and " + (calls - random) + " of Character; " + unknown + " not known, " + failed + " differ");
        System.exit(failed > 0 ? 1 : 0);
    }
}
