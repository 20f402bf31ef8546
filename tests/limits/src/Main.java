/** Tries what docs/LIMITS.md speaks of, one thing under each option. */
public class Main {
    static boolean FLOAT_LOCAL;
    static boolean FLOAT_FIELD;
    static boolean FLOAT_FIELD_THAT_NOTHING_USES;
    static boolean FLOAT_ARRAY;
    static boolean FLOAT_CONSTANT_IN_A_TEXT;
    static boolean SQUARE_ROOT;
    static boolean RANDOM_METHOD;
    static boolean LAMBDA;
    static boolean METHOD_REFERENCE;
    static boolean LAMBDA_THAT_IS_NOT_REACHED;
    static boolean THREAD;
    static boolean SLEEP;
    static boolean NOTIFY;
    static boolean THREAD_LOCAL;
    static boolean ARRAY_LIST;
    static boolean HASH_MAP;
    static boolean SORT;
    static boolean OBJECTS;
    static boolean STREAM;
    static boolean SCANNER;
    static boolean RANDOM;
    static boolean INNER_OF_ANOTHER;
    static boolean GET_CLASS;
    static boolean FOR_NAME;
    static boolean NAME_OF_CLASS;
    static boolean CLASS_AS_VALUE;
    static boolean HASH_CODE;
    static boolean PRINTED_OBJECT;
    static boolean PRINTED_ARRAY;
    static boolean HASH_CODE_OF_BOOLEAN;
    static boolean ENUM_BY_NAME;
    static boolean ENUM_MAP;
    static boolean ENUM_BY_LOOP;
    static boolean BOXED_LONG;
    static boolean LARGEST_LONG;
    static boolean IS_DIGIT;
    static boolean TRIM;
    static boolean REPLACE;
    static boolean SPLIT;
    static boolean CONTAINS;
    static boolean LAST_INDEX;
    static boolean INDEX_FROM;
    static boolean UPPER_CASE;
    static boolean EQUALS_IGNORE_CASE;
    static boolean FORMAT;
    static boolean INTERN;
    static boolean INSERT;
    static boolean SET_CHAR_AT;
    static boolean APPEND_BUILDER;
    static boolean STRING_BUFFER;
    static boolean PARSE_WITH_RADIX;
    static boolean PARSE_BOOLEAN;
    static boolean PRINTF;
    static boolean STANDARD_INPUT;
    static boolean CLOCK;
    static boolean PROPERTY;
    static boolean FILE;
    static boolean STACK_TRACE;
    static boolean NEW_IO_EXCEPTION;
    static boolean CAUGHT_IO_EXCEPTION;
    static boolean NATIVE;
    static boolean BLOCKING_INTERFACE;
    static boolean IS_A_LIST;
    static boolean LOOP;

    public static void main(String[] arguments) {
        if (FLOAT_LOCAL) {
            floatLocal(arguments);
        } else if (FLOAT_FIELD) {
            floatField(arguments);
        } else if (FLOAT_FIELD_THAT_NOTHING_USES) {
            floatFieldThatNothingUses(arguments);
        } else if (FLOAT_ARRAY) {
            floatArray(arguments);
        } else if (FLOAT_CONSTANT_IN_A_TEXT) {
            floatConstantInAText(arguments);
        } else if (SQUARE_ROOT) {
            squareRoot(arguments);
        } else if (RANDOM_METHOD) {
            randomMethod(arguments);
        } else if (LAMBDA) {
            lambda(arguments);
        } else if (METHOD_REFERENCE) {
            methodReference(arguments);
        } else if (LAMBDA_THAT_IS_NOT_REACHED) {
            lambdaThatIsNotReached(arguments);
        } else if (THREAD) {
            thread(arguments);
        } else if (SLEEP) {
            sleep(arguments);
        } else if (NOTIFY) {
            notify(arguments);
        } else if (THREAD_LOCAL) {
            threadLocal(arguments);
        } else if (ARRAY_LIST) {
            arrayList(arguments);
        } else if (HASH_MAP) {
            hashMap(arguments);
        } else if (SORT) {
            sort(arguments);
        } else if (OBJECTS) {
            objects(arguments);
        } else if (STREAM) {
            stream(arguments);
        } else if (SCANNER) {
            scanner(arguments);
        } else if (RANDOM) {
            random(arguments);
        } else if (INNER_OF_ANOTHER) {
            innerOfAnother(arguments);
        } else if (GET_CLASS) {
            getClass(arguments);
        } else if (FOR_NAME) {
            forName(arguments);
        } else if (NAME_OF_CLASS) {
            nameOfClass(arguments);
        } else if (CLASS_AS_VALUE) {
            classAsValue(arguments);
        } else if (HASH_CODE) {
            hashCode(arguments);
        } else if (PRINTED_OBJECT) {
            printedObject(arguments);
        } else if (PRINTED_ARRAY) {
            printedArray(arguments);
        } else if (HASH_CODE_OF_BOOLEAN) {
            hashCodeOfBoolean(arguments);
        } else if (ENUM_BY_NAME) {
            enumByName(arguments);
        } else if (ENUM_MAP) {
            enumMap(arguments);
        } else if (ENUM_BY_LOOP) {
            enumByLoop(arguments);
        } else if (BOXED_LONG) {
            boxedLong(arguments);
        } else if (LARGEST_LONG) {
            largestLong(arguments);
        } else if (IS_DIGIT) {
            isDigit(arguments);
        } else if (TRIM) {
            trim(arguments);
        } else if (REPLACE) {
            replace(arguments);
        } else if (SPLIT) {
            split(arguments);
        } else if (CONTAINS) {
            contains(arguments);
        } else if (LAST_INDEX) {
            lastIndex(arguments);
        } else if (INDEX_FROM) {
            indexFrom(arguments);
        } else if (UPPER_CASE) {
            upperCase(arguments);
        } else if (EQUALS_IGNORE_CASE) {
            equalsIgnoreCase(arguments);
        } else if (FORMAT) {
            format(arguments);
        } else if (INTERN) {
            intern(arguments);
        } else if (INSERT) {
            insert(arguments);
        } else if (SET_CHAR_AT) {
            setCharAt(arguments);
        } else if (APPEND_BUILDER) {
            appendBuilder(arguments);
        } else if (STRING_BUFFER) {
            stringBuffer(arguments);
        } else if (PARSE_WITH_RADIX) {
            parseWithRadix(arguments);
        } else if (PARSE_BOOLEAN) {
            parseBoolean(arguments);
        } else if (PRINTF) {
            printf(arguments);
        } else if (STANDARD_INPUT) {
            standardInput(arguments);
        } else if (CLOCK) {
            clock(arguments);
        } else if (PROPERTY) {
            property(arguments);
        } else if (FILE) {
            file(arguments);
        } else if (STACK_TRACE) {
            stackTrace(arguments);
        } else if (NEW_IO_EXCEPTION) {
            newIoException(arguments);
        } else if (CAUGHT_IO_EXCEPTION) {
            caughtIoException(arguments);
        } else if (NATIVE) {
            nativeMethod(arguments);
        } else if (BLOCKING_INTERFACE) {
            blockingInterface(arguments);
        } else if (IS_A_LIST) {
            isAList(arguments);
        } else if (LOOP) {
            loop(arguments);
        }
    }

    private static void floatLocal(String[] arguments) {
        float weight = arguments.length; System.out.println(weight > 1);
    }

    private static void floatField(String[] arguments) {
        new Things().weight = 2;
    }

    private static void floatFieldThatNothingUses(String[] arguments) {
        System.out.println(new Things().number);
    }

    private static void floatArray(String[] arguments) {
        System.out.println(new float[2].length);
    }

    private static void floatConstantInAText(String[] arguments) {
        System.out.println("x" + 1.5);
    }

    private static void squareRoot(String[] arguments) {
        System.out.println((int) Math.sqrt(16));
    }

    private static void randomMethod(String[] arguments) {
        System.out.println(Math.random() > 0);
    }

    private static void lambda(String[] arguments) {
        Runnable task = () -> System.out.println("run"); task.run();
    }

    private static void methodReference(String[] arguments) {
        Runnable task = Things::fail; task.run();
    }

    private static void lambdaThatIsNotReached(String[] arguments) {
        if (arguments.length > 0) { Runnable task = () -> System.out.println("run"); task.run(); }
    }

    private static void thread(String[] arguments) {
        new Thread().start();
    }

    private static void sleep(String[] arguments) {
        try { Thread.sleep(1); } catch (InterruptedException e) { System.out.println("woken"); }
    }

    private static void notify(String[] arguments) {
        Object lock = new Object(); synchronized (lock) { lock.notifyAll(); }
    }

    private static void threadLocal(String[] arguments) {
        new ThreadLocal<String>();
    }

    private static void arrayList(String[] arguments) {
        new java.util.ArrayList<String>();
    }

    private static void hashMap(String[] arguments) {
        new java.util.HashMap<String, String>();
    }

    private static void sort(String[] arguments) {
        java.util.Arrays.sort(new int[] {2, 1});
    }

    private static void objects(String[] arguments) {
        System.out.println(java.util.Objects.equals("a", "b"));
    }

    private static void stream(String[] arguments) {
        System.out.println(java.util.stream.IntStream.range(0, 3).sum());
    }

    private static void scanner(String[] arguments) {
        new java.util.Scanner("a");
    }

    private static void random(String[] arguments) {
        new java.util.Random(1);
    }

    private static void innerOfAnother(String[] arguments) {
        Things things = new Things(); things.new Inner();
    }

    private static void getClass(String[] arguments) {
        System.out.println(new Things().getClass() == Things.class);
    }

    private static void forName(String[] arguments) {
        try { Class.forName("Things"); } catch (ClassNotFoundException e) { System.out.println("none"); }
    }

    private static void nameOfClass(String[] arguments) {
        System.out.println(Things.class.getName());
    }

    private static void classAsValue(String[] arguments) {
        System.out.println(Things.class == null);
    }

    private static void hashCode(String[] arguments) {
        System.out.println(new Object().hashCode() > 0);
    }

    private static void printedObject(String[] arguments) {
        System.out.println(new Things());
    }

    private static void printedArray(String[] arguments) {
        System.out.println(new int[1]);
    }

    private static void hashCodeOfBoolean(String[] arguments) {
        System.out.println(Boolean.TRUE.hashCode());
    }

    private static void enumByName(String[] arguments) {
        System.out.println(Colour.valueOf("RED"));
    }

    private static void enumMap(String[] arguments) {
        new java.util.EnumMap<Colour, String>(Colour.class);
    }

    private static void enumByLoop(String[] arguments) {
        for (Colour colour : Colour.values()) { System.out.println(colour.name().equals("RED")); }
    }

    private static void boxedLong(String[] arguments) {
        Long number = 3L; System.out.println(number);
    }

    private static void largestLong(String[] arguments) {
        System.out.println(Long.MAX_VALUE);
    }

    private static void isDigit(String[] arguments) {
        System.out.println(Character.isDigit('3'));
    }

    private static void trim(String[] arguments) {
        System.out.println(" a ".trim());
    }

    private static void replace(String[] arguments) {
        System.out.println("abc".replace('b', 'd'));
    }

    private static void split(String[] arguments) {
        System.out.println("a b".split(" ").length);
    }

    private static void contains(String[] arguments) {
        System.out.println("abc".contains("b"));
    }

    private static void lastIndex(String[] arguments) {
        System.out.println("abc".lastIndexOf("b"));
    }

    private static void indexFrom(String[] arguments) {
        System.out.println("abc".indexOf("b", 1));
    }

    private static void upperCase(String[] arguments) {
        System.out.println("abc".toUpperCase());
    }

    private static void equalsIgnoreCase(String[] arguments) {
        System.out.println("abc".equalsIgnoreCase("ABC"));
    }

    private static void format(String[] arguments) {
        System.out.println(String.format("%d", 3));
    }

    private static void intern(String[] arguments) {
        System.out.println("abc".intern());
    }

    private static void insert(String[] arguments) {
        System.out.println(new StringBuilder("a").insert(0, "b"));
    }

    private static void setCharAt(String[] arguments) {
        new StringBuilder("a").setCharAt(0, 'b');
    }

    private static void appendBuilder(String[] arguments) {
        new StringBuilder("a").append(new StringBuilder("b"));
    }

    private static void stringBuffer(String[] arguments) {
        new StringBuffer();
    }

    private static void parseWithRadix(String[] arguments) {
        System.out.println(Integer.parseInt("12", 8));
    }

    private static void parseBoolean(String[] arguments) {
        System.out.println(Boolean.parseBoolean("true"));
    }

    private static void printf(String[] arguments) {
        System.out.printf("%d", 3);
    }

    private static void standardInput(String[] arguments) {
        System.out.println(System.in == null);
    }

    private static void clock(String[] arguments) {
        System.out.println(System.currentTimeMillis() > 0);
    }

    private static void property(String[] arguments) {
        System.out.println(System.getProperty("A"));
    }

    private static void file(String[] arguments) {
        new java.io.File("a").exists();
    }

    private static void stackTrace(String[] arguments) {
        new RuntimeException().printStackTrace();
    }

    private static void newIoException(String[] arguments) {
        new java.io.IOException();
    }

    private static void caughtIoException(String[] arguments) {
        try { Things.fails(); } catch (java.io.IOException e) { System.out.println("io"); } catch (RuntimeException e) { System.out.println("runtime"); }
    }

    private static void nativeMethod(String[] arguments) {
        Things.nowhere();
    }

    private static void blockingInterface(String[] arguments) {
        new Initialised.Below();
    }

    private static void isAList(String[] arguments) {
        Object thing = "a"; System.out.println(thing instanceof java.util.List);
    }

    private static void loop(String[] arguments) {
        for (;;) { }
    }
}
