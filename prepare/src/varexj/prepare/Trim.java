package varexj.prepare;

import java.util.ArrayDeque;
import java.util.Deque;
import java.util.HashSet;
import java.util.Set;
import org.objectweb.asm.Opcodes;
import org.objectweb.asm.tree.ClassNode;
import org.objectweb.asm.tree.InsnNode;
import org.objectweb.asm.tree.MethodInsnNode;
import org.objectweb.asm.tree.MethodNode;

/**
 * Leaves out what main doesn't come to of the library: the bodies of methods, and then the classes that nothing names any more. Such a body ends the
 * run by a native method, so that nothing else could come of it.
 */
final class Trim {
    static final String UNREACHED = "varexj/made/Unreached";

    private Trim() {
    }

    /** Where it is asked for, the program's own classes are trimmed too, but for the one whose main runs. */
    static void trim(World world, Reach reach, String first, boolean all) {
        World.Origin program = all ? World.Origin.PROGRAM : World.Origin.LIBRARY;
        for (ClassNode node : world.from(World.Origin.LIBRARY, program)) {
            for (MethodNode method : node.methods) {
                if (method.instructions.size() > 0 && !reach.has(method)) {
                    empty(method);
                }
            }
        }
        ClassNode node = Emit.newClass(UNREACHED, Opcodes.ACC_PUBLIC | Opcodes.ACC_FINAL, World.OBJECT);
        node.methods.add(new MethodNode(Opcodes.ACC_PUBLIC | Opcodes.ACC_STATIC | Opcodes.ACC_NATIVE | Emit.MADE, "end", "()V", null, null));
        world.add(node, World.Origin.LIBRARY);
        drop(world, first, all);
    }

    private static void empty(MethodNode method) {
        method.instructions.clear();
        method.tryCatchBlocks.clear();
        method.instructions.add(new MethodInsnNode(Opcodes.INVOKESTATIC, UNREACHED, "end", "()V", false));
        method.instructions.add(new InsnNode(Opcodes.ACONST_NULL));
        method.instructions.add(new InsnNode(Opcodes.ATHROW));
        method.maxStack = 1;
    }

    /** The table of class objects names all classes, and is made anew afterwards. */
    private static void drop(World world, String first, boolean all) {
        Set<String> kept = new HashSet<>();
        kept.add(first);
        Deque<ClassNode> waiting = new ArrayDeque<>();
        for (ClassNode node : world.from(World.Origin.PROGRAM, World.Origin.MADE)) {
            if (node.name.equals(first) || !isTrimmed(world, node.name, all) && !node.name.equals(Tables.NAME)) {
                waiting.add(node);
            }
        }
        while (!waiting.isEmpty()) {
            for (String name : Library.named(waiting.remove())) {
                if (isTrimmed(world, name, all) && kept.add(name)) {
                    waiting.add(world.get(name));
                }
            }
        }
        for (ClassNode node : world.all()) {
            if (isTrimmed(world, node.name, all) && !kept.contains(node.name)) {
                world.remove(node.name);
            }
        }
    }

    /** Whether a class is one that goes where nothing names it. A lambda goes with the class in which it stands. */
    private static boolean isTrimmed(World world, String name, boolean all) {
        World.Origin origin = world.origin(name);
        return origin == World.Origin.LIBRARY || all && (origin == World.Origin.PROGRAM || origin == World.Origin.MADE && name.contains("$$"));
    }
}
