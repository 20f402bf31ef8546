package varexj.prepare;

import java.io.IOException;
import java.nio.charset.StandardCharsets;
import java.nio.file.Files;
import java.nio.file.Path;
import java.util.ArrayList;
import java.util.Collection;
import java.util.HashSet;
import java.util.LinkedHashSet;
import java.util.List;
import java.util.Map;
import java.util.Set;
import java.util.TreeMap;
import org.objectweb.asm.Opcodes;
import org.objectweb.asm.tree.AbstractInsnNode;
import org.objectweb.asm.tree.ClassNode;
import org.objectweb.asm.tree.FieldNode;
import org.objectweb.asm.tree.MethodNode;

/** The classes that a prepared program may come to: the machine's core classes, the program's, the library's, and those that are made. */
final class World {
    /** Where a class is from. */
    enum Origin { CORE, PROGRAM, LIBRARY, MADE }

    /** A method and the class that declares it. */
    static final class Member {
        final ClassNode owner;
        final MethodNode method;

        Member(ClassNode owner, MethodNode method) {
            this.owner = owner;
            this.method = method;
        }

        boolean is(int flag) {
            return (method.access & flag) != 0;
        }
    }

    static final String OBJECT = "java/lang/Object";

    private final Map<String, ClassNode> classes = new TreeMap<>();
    private final Map<String, Origin> origins = new TreeMap<>();
    private final Set<MethodNode> refused = new HashSet<>();
    private final Set<AbstractInsnNode> kept = new HashSet<>();

    /** Reads the text of the core classes. */
    void readCore(Path file) throws IOException {
        ClassNode node = null;
        for (String line : new String(Files.readAllBytes(file), StandardCharsets.US_ASCII).split("\n")) {
            String[] words = line.split(" ");
            int flags = Integer.parseInt(words[1], 16);
            if (words[0].equals("class")) {
                node = new ClassNode();
                node.version = Opcodes.V1_7;
                node.access = flags;
                node.name = words[2];
                node.superName = words[3].equals("-") ? null : words[3];
                for (int at = 4; at < words.length; at++) {
                    node.interfaces.add(words[at]);
                }
                add(node, Origin.CORE);
            } else if (words[0].equals("field")) {
                node.fields.add(new FieldNode(flags, words[2], words[3], null, null));
            } else {
                MethodNode method = new MethodNode(flags, words[2], words[3], null, null);
                node.methods.add(method);
                if (words[0].equals("refused")) {
                    refused.add(method);
                }
            }
        }
    }

    void add(ClassNode node, Origin origin) {
        classes.put(node.name, node);
        origins.put(node.name, origin);
    }

    void remove(String name) {
        classes.remove(name);
        origins.remove(name);
    }

    /** The class of this name, or null. */
    ClassNode get(String name) {
        return classes.get(name);
    }

    boolean has(String name) {
        return classes.containsKey(name);
    }

    Origin origin(String name) {
        return origins.get(name);
    }

    boolean isCore(String name) {
        return origins.get(name) == Origin.CORE;
    }

    /** All classes, in a copy. */
    Collection<ClassNode> all() {
        return new ArrayList<>(classes.values());
    }

    /** The classes of these origins, in a copy. */
    List<ClassNode> from(Origin... wanted) {
        List<ClassNode> found = new ArrayList<>();
        for (ClassNode node : classes.values()) {
            for (Origin origin : wanted) {
                if (origins.get(node.name) == origin) {
                    found.add(node);
                }
            }
        }
        return found;
    }

    /** Whether a method of a core class is one that ends the run. */
    boolean isRefused(MethodNode method) {
        return refused.contains(method);
    }

    /** Marks a call that stays as it is, though calls of its method go elsewhere. */
    void keep(AbstractInsnNode call) {
        kept.add(call);
    }

    boolean isKept(AbstractInsnNode call) {
        return kept.contains(call);
    }

    static boolean isInterface(ClassNode node) {
        return (node.access & Opcodes.ACC_INTERFACE) != 0;
    }

    static MethodNode declared(ClassNode node, String name, String descriptor) {
        for (MethodNode method : node.methods) {
            if (method.name.equals(name) && method.desc.equals(descriptor)) {
                return method;
            }
        }
        return null;
    }

    /** The class and its superclasses, from below. */
    List<ClassNode> chain(String name) {
        List<ClassNode> found = new ArrayList<>();
        for (ClassNode node = get(name); node != null && !found.contains(node); node = node.superName == null ? null : get(node.superName)) {
            found.add(node);
        }
        return found;
    }

    /** All superinterfaces, those of the class first, each directly followed by its own (JVMS 5.4.3.3 leaves the order open). */
    Set<ClassNode> interfaces(String name) {
        Set<ClassNode> found = new LinkedHashSet<>();
        for (ClassNode node : chain(name)) {
            collect(node, found);
        }
        return found;
    }

    private void collect(ClassNode node, Set<ClassNode> found) {
        for (String above : node.interfaces) {
            ClassNode next = get(above);
            if (next != null && found.add(next)) {
                collect(next, found);
            }
        }
    }

    /** All classes and interfaces at or above a class: the chain of superclasses first, then the interfaces. */
    Set<ClassNode> above(String name) {
        Set<ClassNode> found = new LinkedHashSet<>(chain(name));
        found.addAll(interfaces(name));
        return found;
    }

    boolean isBelow(String name, String above) {
        if (above.equals(OBJECT)) {
            return true;
        }
        for (ClassNode node : above(name)) {
            if (node.name.equals(above)) {
                return true;
            }
        }
        return false;
    }

    /** The method to which a name leads (JVMS 5.4.3.3, 5.4.3.4), or null. A constructor is looked for in the named class alone. */
    Member resolve(String owner, String name, String descriptor) {
        ClassNode first = get(owner.startsWith("[") ? OBJECT : owner);
        if (first == null) {
            return null;
        }
        if (name.startsWith("<")) {
            MethodNode method = declared(first, name, descriptor);
            return method == null ? null : new Member(first, method);
        }
        Set<ClassNode> places = new LinkedHashSet<>();
        if (isInterface(first)) {
            places.add(first);
            places.addAll(interfaces(first.name));
            places.add(get(OBJECT));
        } else {
            places.addAll(above(first.name));
        }
        for (ClassNode node : places) {
            MethodNode method = declared(node, name, descriptor);
            if (method != null) {
                return new Member(node, method);
            }
        }
        return null;
    }

    /** The method that a virtual call selects in an object of this class (JVMS 5.4.6), or null where none is there. It may be abstract. */
    Member select(String type, String name, String descriptor) {
        for (ClassNode node : chain(type)) {
            MethodNode method = declared(node, name, descriptor);
            if (method != null && (method.access & (Opcodes.ACC_STATIC | Opcodes.ACC_PRIVATE)) == 0) {
                return new Member(node, method);
            }
        }
        Member found = null;
        for (ClassNode node : interfaces(type)) {
            MethodNode method = declared(node, name, descriptor);
            if (method != null && (method.access & (Opcodes.ACC_STATIC | Opcodes.ACC_PRIVATE)) == 0) {
                boolean better = found == null || isBelow(node.name, found.owner.name)
                        || found.is(Opcodes.ACC_ABSTRACT) && !isBelow(found.owner.name, node.name);
                found = better ? new Member(node, method) : found;
            }
        }
        return found;
    }

    /** The class that declares the field to which a name leads (JVMS 5.4.3.2), or null. */
    ClassNode fieldOwner(String owner, String name, String descriptor) {
        ClassNode node = get(owner);
        if (node == null) {
            return null;
        }
        for (FieldNode field : node.fields) {
            if (field.name.equals(name) && field.desc.equals(descriptor)) {
                return node;
            }
        }
        for (String above : node.interfaces) {
            ClassNode found = fieldOwner(above, name, descriptor);
            if (found != null) {
                return found;
            }
        }
        return node.superName == null ? null : fieldOwner(node.superName, name, descriptor);
    }

    FieldNode field(String owner, String name, String descriptor) {
        ClassNode node = fieldOwner(owner, name, descriptor);
        if (node != null) {
            for (FieldNode field : node.fields) {
                if (field.name.equals(name) && field.desc.equals(descriptor)) {
                    return field;
                }
            }
        }
        return null;
    }

    /** The source name of the first missing class above a class, or null where none is missing. */
    String missingAbove(ClassNode node) {
        if (node.superName != null && !has(node.superName)) {
            return node.superName;
        }
        for (String above : node.interfaces) {
            if (!has(above)) {
                return above;
            }
        }
        return null;
    }
}
