package varexj.prepare;

import java.util.Arrays;
import java.util.Collections;
import java.util.HashMap;
import java.util.List;
import java.util.Map;
import org.objectweb.asm.Label;
import org.objectweb.asm.Opcodes;
import org.objectweb.asm.Type;
import org.objectweb.asm.tree.ClassNode;
import org.objectweb.asm.tree.MethodInsnNode;
import org.objectweb.asm.tree.MethodNode;
import org.objectweb.asm.tree.TypeInsnNode;

/**
 * Types of the library that core classes have on a Java machine and not here: a StringBuilder is an Appendable. Calls by such a type, casts to it and
 * questions for it go to made methods that ask for the core class first.
 */
final class Kinds {
    static final String NAME = "varexj/made/Kinds";
    private static final String STREAM = "java/io/PrintStream";
    private static final String OUTPUT = "java/io/OutputStream";
    private static final Map<String, List<String>> CORES = cores();

    private final World world;
    private final Library library;
    private final ClassNode node = Emit.newClass(NAME, Opcodes.ACC_PUBLIC | Opcodes.ACC_FINAL, World.OBJECT);
    private final Map<String, String> made = new HashMap<>();

    Kinds(World world, Library library) {
        this.world = world;
        this.library = library;
    }

    private static Map<String, List<String>> cores() {
        Map<String, List<String>> cores = new HashMap<>();
        cores.put("java/lang/Appendable", Arrays.asList(Emit.BUILDER, STREAM));
        for (String type : Arrays.asList("java/lang/AutoCloseable", "java/io/Closeable", "java/io/Flushable", OUTPUT)) {
            cores.put(type, Collections.singletonList(STREAM));
        }
        return cores;
    }

    private static List<String> coresOf(String type) {
        return CORES.getOrDefault(type, Collections.emptyList());
    }

    /** Turns a call by one of these types; gives whether it was one. */
    boolean turn(MethodInsnNode call) {
        boolean selects = call.getOpcode() == Opcodes.INVOKEVIRTUAL || call.getOpcode() == Opcodes.INVOKEINTERFACE;
        if (!selects || coresOf(call.owner).isEmpty() || !library.has(call.owner) || isOfObject(call)) {
            return false;
        }
        String descriptor = "(L" + call.owner + ";" + call.desc.substring(1);
        String name = made.computeIfAbsent(call.owner + "." + call.name + call.desc, key -> {
            String method = call.name + "$" + made.size();
            method(call, Emit.in(node, Opcodes.ACC_PUBLIC | Opcodes.ACC_STATIC, method, descriptor, 0));
            return method;
        });
        call.setOpcode(Opcodes.INVOKESTATIC);
        call.owner = NAME;
        call.name = name;
        call.desc = descriptor;
        call.itf = false;
        world.add(node, World.Origin.MADE);
        return true;
    }

    private boolean isOfObject(MethodInsnNode call) {
        return World.declared(world.get(World.OBJECT), call.name, call.desc) != null || call.name.equals("getClass");
    }

    private void method(MethodInsnNode call, Emit code) {
        Type self = Type.getObjectType(call.owner);
        Type[] types = Type.getArgumentTypes(call.desc);
        Type result = Type.getReturnType(call.desc);
        code.method.maxStack = Math.max(code.method.maxLocals, 2);
        for (String core : coresOf(call.owner)) {
            Label next = new Label();
            code.load(0, self).type(Opcodes.INSTANCEOF, core).jump(Opcodes.IFEQ, next);
            Type own = result.equals(self) ? Type.getObjectType(core) : result;
            String bare = Type.getMethodDescriptor(own, types);
            World.Member member = world.resolve(core, call.name, bare);
            String companion = Redirects.companion(core);
            String with = "(L" + core + ";" + bare.substring(1);
            if (member != null || library.hasMethod(companion, call.name, with)) {
                code.load(0, self).type(Opcodes.CHECKCAST, core);
                code.loadAll(1, types);
                code.call(member != null ? Opcodes.INVOKEVIRTUAL : Opcodes.INVOKESTATIC, member != null ? core : companion, call.name, member != null ? bare : with);
                code.returned(result);
            } else {
                end(code);
            }
            code.same(next);
        }
        code.load(0, self);
        code.loadAll(1, types);
        code.call(call.getOpcode(), call.owner, call.name, call.desc).returned(result);
    }

    /** Ends the run: what the core class would do there isn't known here. */
    private void end(Emit code) {
        if (World.declared(node, "end", "()V") == null) {
            node.methods.add(new MethodNode(Opcodes.ACC_PUBLIC | Opcodes.ACC_STATIC | Opcodes.ACC_NATIVE | Emit.MADE, "end", "()V", null, null));
        }
        code.call(Opcodes.INVOKESTATIC, NAME, "end", "()V").op(Opcodes.ACONST_NULL).op(Opcodes.ATHROW);
    }

    /** Turns a cast or a question; gives the call in its place, or null. A stream that would have to be of a class here ends the run. */
    MethodInsnNode turn(TypeInsnNode at) {
        boolean isCast = at.getOpcode() == Opcodes.CHECKCAST;
        if (!isCast && at.getOpcode() != Opcodes.INSTANCEOF || coresOf(at.desc).isEmpty() || !library.has(at.desc)) {
            return null;
        }
        String descriptor = "(Ljava/lang/Object;)" + (isCast ? "L" + at.desc + ";" : "Z");
        String name = made.computeIfAbsent(at.getOpcode() + at.desc, key -> {
            String method = (isCast ? "cast$" : "is$") + made.size();
            Emit code = Emit.in(node, Opcodes.ACC_PUBLIC | Opcodes.ACC_STATIC, method, descriptor, 1);
            Type object = Type.getObjectType(World.OBJECT);
            for (String core : coresOf(at.desc)) {
                Label next = new Label();
                code.load(0, object).type(Opcodes.INSTANCEOF, core).jump(Opcodes.IFEQ, next);
                if (isCast && at.desc.equals(OUTPUT)) {
                    end(code);
                } else if (isCast) {
                    code.load(0, object).op(Opcodes.ARETURN);
                } else {
                    code.number(1).op(Opcodes.IRETURN);
                }
                code.same(next);
            }
            code.load(0, object).type(at.getOpcode(), at.desc).op(isCast ? Opcodes.ARETURN : Opcodes.IRETURN);
            return method;
        });
        world.add(node, World.Origin.MADE);
        return new MethodInsnNode(Opcodes.INVOKESTATIC, NAME, name, descriptor, false);
    }
}
