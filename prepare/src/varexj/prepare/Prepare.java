package varexj.prepare;

import java.io.IOException;
import java.nio.file.Files;
import java.nio.file.Path;
import java.nio.file.Paths;
import java.util.ArrayList;
import java.util.Arrays;
import java.util.HashMap;
import java.util.HashSet;
import java.util.List;
import java.util.Map;
import java.util.Set;
import org.objectweb.asm.Opcodes;
import org.objectweb.asm.tree.ClassNode;
import org.objectweb.asm.tree.MethodNode;

/** Makes of class files of any version of Java a folder that `varexj` runs. */
public final class Prepare {
    private static final int MOST_CLASSES = 1024;

    private final Words words;
    private final World world = new World();
    private final Library library;
    private final Facts facts = new Facts();
    private final Input input = new Input();
    private final Map<String, Names> names = new HashMap<>();
    private String main;

    private Prepare(Words words, Path home) throws IOException {
        this.words = words;
        this.library = new Library(home.resolve("library/classes"));
        world.readCore(home.resolve("prepare/core"));
    }

    /** The first word is the folder that has `prepare` and `library`; the others are those of the call. */
    public static void main(String[] args) throws IOException {
        List<String> rest = new ArrayList<>(Arrays.asList(args));
        Path home = Paths.get(rest.remove(0));
        int status;
        try {
            status = new Prepare(Words.read(rest.toArray(new String[0])), home).run();
        } catch (Refusal refusal) {
            System.err.println("prepare: " + refusal.getMessage());
            status = refusal.status;
        }
        System.exit(status);
    }

    private int run() throws IOException {
        Path out = words.check ? null : emptyFolder(words.out);
        for (String place : words.in) {
            input.read(place);
        }
        takeProgram();
        main = chosenMain();
        for (ClassNode node : world.from(World.Origin.PROGRAM)) {
            Dynamics.expand(world, library, node);
        }
        Nests.open(world, world.from(World.Origin.PROGRAM, World.Origin.MADE));
        for (ClassNode node : world.from(World.Origin.PROGRAM, World.Origin.MADE)) {
            Shape.reduce(node);
        }
        String first = Sources.bind(world, words, main);
        complete();
        Reach reach = trimmed(first);
        boolean lacking = Doctor.examine(world, reach, facts, words.all) | lacksRoom();
        tell(first);
        if (out != null) {
            write(out);
        }
        Models.write(words);
        for (String line : facts.all()) {
            System.out.println(line);
        }
        return lacking ? 1 : 0;
    }

    /** The machine takes so many class files at most. */
    private boolean lacksRoom() {
        int count = world.from(World.Origin.PROGRAM, World.Origin.MADE, World.Origin.LIBRARY).size();
        if (count > MOST_CLASSES) {
            facts.add("lacks room for " + count + " classes, of which the machine takes " + MOST_CLASSES + (words.trim ? "" : ": see --trim"));
        }
        return count > MOST_CLASSES;
    }

    private static Path emptyFolder(String name) throws IOException {
        Path out = Paths.get(name);
        if (Files.exists(out) && (!Files.isDirectory(out) || Files.newDirectoryStream(out).iterator().hasNext())) {
            throw new Refusal(Refusal.USAGE, name + " is neither new nor an empty folder");
        }
        return out;
    }

    /** Takes the classes of the input, but for those whose superclass or interface isn't there, and those below them. */
    private void takeProgram() {
        for (ClassNode node : input.classes.values()) {
            names.put(node.name, Names.of(node));
            if (world.isCore(node.name) || node.name.startsWith("varexj/")) {
                facts.add("left-out " + node.name + " the machine has its own");
            } else {
                world.add(Names.renamed(node, words.loose.contains("concurrent"), facts), World.Origin.PROGRAM);
            }
        }
        boolean again = true;
        while (again) {
            again = false;
            for (ClassNode node : world.from(World.Origin.PROGRAM)) {
                Missing.replace(world, library, node, facts);
                String missing = missingAbove(node);
                if (missing != null) {
                    facts.add("left-out " + node.name + " no super " + missing);
                    world.remove(node.name);
                    again = true;
                }
            }
        }
    }

    private String missingAbove(ClassNode node) {
        List<String> above = new ArrayList<>(node.interfaces);
        above.add(0, node.superName);
        for (String name : above) {
            if (name != null && !world.has(name) && !library.has(name)) {
                return name;
            }
        }
        return null;
    }

    private String chosenMain() {
        String wanted = words.main != null ? words.main : input.main;
        List<String> found = new ArrayList<>();
        for (ClassNode node : world.from(World.Origin.PROGRAM)) {
            MethodNode method = World.declared(node, "main", "([Ljava/lang/String;)V");
            if (method != null && (method.access & Opcodes.ACC_STATIC) != 0) {
                found.add(node.name);
            }
        }
        if (wanted != null) {
            if (world.get(wanted) == null || world.resolve(wanted, "main", "([Ljava/lang/String;)V") == null) {
                throw new Refusal(Refusal.USAGE, "no main in " + wanted);
            }
            return wanted;
        }
        if (found.isEmpty()) {
            throw new Refusal(Refusal.USAGE, "no class has a main");
        }
        int first = found.stream().mapToInt(input.places::get).min().getAsInt();
        found.removeIf(name -> input.places.get(name) != first);
        if (found.size() != 1) {
            throw new Refusal(Refusal.USAGE, "--main has to say which: " + String.join(", ", found));
        }
        return found.get(0);
    }

    /** Takes the classes of the library that are come to, completes each class, and turns its calls, until nothing new is come to. */
    private void complete() {
        Redirects redirects = new Redirects(world, library, words.loose, facts);
        Set<String> done = new HashSet<>();
        for (List<ClassNode> next = fresh(done); !next.isEmpty(); next = fresh(done)) {
            for (ClassNode node : next) {
                close(node);
            }
            for (ClassNode node : fresh(done)) {
                done.add(node.name);
                Objects.complete(world, node);
                facts.of(node.name, world.origin(node.name) != World.Origin.LIBRARY && !node.name.startsWith("varexj/"));
                redirects.turn(node);
            }
            for (ClassNode node : world.from(World.Origin.PROGRAM, World.Origin.MADE, World.Origin.LIBRARY)) {
                close(node);
            }
        }
        if (redirects.clones()) {
            Objects.copies(world, world.from(World.Origin.PROGRAM, World.Origin.MADE, World.Origin.LIBRARY));
        }
        redirects.guard();
    }

    /** Drops what main doesn't come to of the library, and gives what is left. */
    private Reach trimmed(String first) {
        ClassNode stub = world.get(Tables.NAME);
        if (stub != null) {
            world.add(Tables.make(world, stub, names), World.Origin.MADE);
        }
        Trim.trim(world, Reach.from(world, first), first, words.trim);
        if (stub != null && world.has(Tables.NAME)) {
            world.remove(Tables.NAME);
            world.add(Tables.make(world, stub, names), World.Origin.MADE);
        }
        return Reach.from(world, first);
    }

    private List<ClassNode> fresh(Set<String> done) {
        List<ClassNode> found = world.from(World.Origin.PROGRAM, World.Origin.MADE, World.Origin.LIBRARY);
        found.removeIf(node -> done.contains(node.name));
        return found;
    }

    /** Takes what a class names of the library, and what that names. */
    private void close(ClassNode node) {
        for (String name : Library.named(node)) {
            ClassNode next = null;
            if (!world.has(name) && name.equals(Texts.NAME)) {
                next = Texts.make();
            } else if (!world.has(name) && name.equals(Sources.SETTINGS)) {
                next = Sources.settings(words);
            } else if (!world.has(name) && !input.classes.containsKey(name)) {
                next = library.get(name);
            }
            if (next != null) {
                boolean isMade = name.equals(Texts.NAME) || name.equals(Sources.SETTINGS);
                names.putIfAbsent(name, Names.of(next));
                Shape.reduce(next);
                world.add(next, isMade ? World.Origin.MADE : World.Origin.LIBRARY);
                close(next);
            }
        }
    }

    private void tell(String first) {
        facts.add("main " + first);
        for (Source source : words.options) {
            facts.add("option " + source.option + " " + source.binding() + " " + source);
        }
        facts.add("done " + world.from(World.Origin.PROGRAM).size() + " " + world.from(World.Origin.MADE).size() + " " + world.from(World.Origin.LIBRARY).size());
    }

    private void write(Path out) throws IOException {
        for (ClassNode node : world.from(World.Origin.PROGRAM, World.Origin.MADE, World.Origin.LIBRARY)) {
            Path file = out.resolve(node.name + ".class");
            Files.createDirectories(file.getParent());
            Files.write(file, Library.bytes(node));
        }
    }
}
