package varexj.prepare;

import java.util.ArrayList;
import java.util.LinkedHashSet;
import java.util.List;
import java.util.Map;
import java.util.Set;
import java.util.TreeMap;
import org.objectweb.asm.Label;
import org.objectweb.asm.Opcodes;
import org.objectweb.asm.Type;
import org.objectweb.asm.tree.AbstractInsnNode;
import org.objectweb.asm.tree.ClassNode;
import org.objectweb.asm.tree.FieldInsnNode;
import org.objectweb.asm.tree.InsnNode;
import org.objectweb.asm.tree.MethodInsnNode;
import org.objectweb.asm.tree.MethodNode;
import org.objectweb.asm.tree.TypeInsnNode;

/**
 * Calls of members that the core classes lack go to companions: to the static method of the same name in `varexj/lang/XMembers`, for the first core
 * class or interface X above the owner that has a companion with it. There is no list here.
 */
final class Redirects {
    private static final String GUARDS = "varexj/made/Guards";
    private static final String WITH_TEXT = "(Ljava/lang/String;)V";
    private static final String SUPPRESSING = "(Ljava/lang/String;Ljava/lang/Throwable;ZZ)V";
    private static final String WITH_CAUSE = "(Ljava/lang/String;Ljava/lang/Throwable;)V";

    /** A member of objects that companions stand for, with the calls that were turned to it. */
    private static final class Turned {
        final String owner;
        final String name;
        final String descriptor;
        final List<MethodInsnNode> calls = new ArrayList<>();

        Turned(String owner, String name, String descriptor) {
            this.owner = owner;
            this.name = name;
            this.descriptor = descriptor;
        }
    }

    private final World world;
    private final Library library;
    private final Set<String> loose;
    private final Facts facts;
    private final Map<String, Turned> turned = new TreeMap<>();
    private final Kinds kinds;
    private boolean clones;

    Redirects(World world, Library library, Set<String> loose, Facts facts) {
        this.world = world;
        this.library = library;
        this.loose = loose;
        this.facts = facts;
        this.kinds = new Kinds(world, library);
    }

    /** Whether a copy of an object was asked for. */
    boolean clones() {
        return clones;
    }

    static String companion(String core) {
        return "varexj/lang/" + core.substring(core.lastIndexOf('/') + 1) + "Members";
    }

    /** Turns the calls of a class. Those of companions stay as they are. */
    void turn(ClassNode node) {
        boolean isCompanion = node.name.startsWith("varexj/");
        for (MethodNode method : node.methods) {
            for (AbstractInsnNode at : method.instructions.toArray()) {
                if (at instanceof MethodInsnNode && !world.isKept(at)) {
                    MethodInsnNode call = (MethodInsnNode) at;
                    if (!isCompanion && call.owner.startsWith("varexj/lang/") && call.owner.endsWith("Members")) {
                        direct(method, call);
                    } else if (!isCompanion && !kinds.turn(call)) {
                        call(method, call);
                    }
                } else if (at instanceof FieldInsnNode && !isCompanion) {
                    field((FieldInsnNode) at);
                } else if (at instanceof TypeInsnNode && !isCompanion && kinds.turn((TypeInsnNode) at) != null) {
                    method.instructions.set(at, kinds.turn((TypeInsnNode) at));
                }
            }
        }
    }

    /**
     * A call of a companion that the library wrote as such: it is one of the member that the companion stands for. Inside of a method that has the
     * member's name it is a call by `super`.
     */
    private void direct(MethodNode method, MethodInsnNode call) {
        Type[] types = Type.getArgumentTypes(call.desc);
        if (types.length == 0 || types[0].getSort() != Type.OBJECT || !companion(types[0].getInternalName()).equals(call.owner)) {
            return;
        }
        clones |= call.name.equals("clone");
        String descriptor = "(" + call.desc.substring(1 + types[0].getDescriptor().length());
        if (!method.name.equals(call.name) || !method.desc.equals(descriptor)) {
            remember(types[0].getInternalName(), call.name, descriptor, call);
        }
    }

    private void remember(String core, String name, String descriptor, MethodInsnNode call) {
        boolean ofObject = core.equals(World.OBJECT) && (name.equals("hashCode") || name.equals("toString") || name.equals("equals") || name.startsWith("identity"));
        if (!ofObject) {
            turned.computeIfAbsent(core + "." + name + descriptor, key -> new Turned(core, name, descriptor)).calls.add(call);
        }
    }

    private void field(FieldInsnNode at) {
        if (at.getOpcode() == Opcodes.GETSTATIC && world.isCore(at.owner) && world.fieldOwner(at.owner, at.name, at.desc) == null) {
            String companion = companion(at.owner);
            if (library.has(companion) && library.hasField(companion, at.name, at.desc)) {
                facts.redirected(at.owner + "." + at.name + ":" + at.desc);
                at.owner = companion;
            }
        }
    }

    private void call(MethodNode method, MethodInsnNode call) {
        String owner = call.owner.startsWith("[") ? World.OBJECT : call.owner;
        if (!world.has(owner) || call.owner.startsWith("[") && call.name.equals("clone")) {
            return;
        }
        if (clock(method, call)) {
            return;
        }
        World.Member member = world.resolve(owner, call.name, call.desc);
        boolean bySuper = call.getOpcode() == Opcodes.INVOKESPECIAL;
        if (member == null) {
            missing(method, call, owner);
        } else if (world.isRefused(member.method)) {
            refused(call, owner, bySuper);
        } else if (world.isCore(member.owner.name)) {
            String text = Texts.standsFor(member.owner.name, call.name, call.desc);
            if (text != null) {
                turnTo(call, Texts.NAME, text, call.getOpcode() == Opcodes.INVOKESTATIC ? call.desc : with(member.owner.name, call.desc));
            } else if (bySuper && member.is(Opcodes.ACC_ABSTRACT)) {
                toCompanion(call, owner);
            }
        }
    }

    /** hashCode and toString of Object. By `super` they are those of the identity, and never the virtual ones again. */
    private void refused(MethodInsnNode call, String owner, boolean bySuper) {
        if (bySuper) {
            String name = call.name.equals(Objects.HASH) ? "identityHashCode" : "identityToString";
            turnTo(call, Objects.MEMBERS, name, with(World.OBJECT, call.desc));
        } else {
            toCompanion(call, owner);
        }
    }

    private boolean clock(MethodNode method, MethodInsnNode call) {
        boolean isClock = call.owner.equals("java/lang/System") && (call.name.equals("currentTimeMillis") || call.name.equals("nanoTime"));
        if (isClock && loose.contains("clock")) {
            facts.loose("clock", call, method);
            method.instructions.set(call, new InsnNode(Opcodes.LCONST_0));
            return true;
        }
        return false;
    }

    private void missing(MethodNode method, MethodInsnNode call, String owner) {
        if (!call.name.equals("<init>")) {
            toCompanion(call, owner);
        } else if (world.isCore(owner)) {
            constructor(method, call);
        }
    }

    /** A constructor goes to `init`, whose text is handed to the constructor of one text: the object that was made stays the same one. */
    private void constructor(MethodNode method, MethodInsnNode call) {
        String companion = companion(call.owner);
        String init = call.desc.substring(0, call.desc.length() - 1) + "Ljava/lang/String;";
        // The one of AssertionError that takes a text is private on a Java machine; the one that takes an object does the same with a text.
        String to = call.owner.equals("java/lang/AssertionError") ? "(Ljava/lang/Object;)V" : WITH_TEXT;
        if (library.hasMethod(companion, "init", init) && world.resolve(call.owner, "<init>", to) != null) {
            facts.redirected(call.owner + ".<init>" + call.desc);
            method.instructions.insertBefore(call, new MethodInsnNode(Opcodes.INVOKESTATIC, companion, "init", init, false));
            call.desc = to;
        } else if (call.desc.equals(SUPPRESSING) && world.resolve(call.owner, "<init>", WITH_CAUSE) != null) {
            method.instructions.insertBefore(call, new InsnNode(Opcodes.POP));
            method.instructions.insertBefore(call, new InsnNode(Opcodes.POP));
            call.desc = WITH_CAUSE;
        } else if (Boxes.isOne(call) && loose.contains("integer-identity") && Boxes.byValue(method, call)) {
            facts.loose("integer-identity", call, method);
        }
    }

    private static String with(String owner, String descriptor) {
        return "(L" + owner + ";" + descriptor.substring(1);
    }

    private void turnTo(MethodInsnNode call, String owner, String name, String descriptor) {
        call.setOpcode(Opcodes.INVOKESTATIC);
        call.owner = owner;
        call.name = name;
        call.desc = descriptor;
        call.itf = false;
    }

    private void toCompanion(MethodInsnNode call, String owner) {
        boolean isStatic = call.getOpcode() == Opcodes.INVOKESTATIC;
        Set<ClassNode> above = new LinkedHashSet<>(world.above(owner));
        above.add(world.get(World.OBJECT));
        for (ClassNode core : above) {
            String companion = companion(core.name);
            String descriptor = isStatic ? call.desc : with(core.name, call.desc);
            if (world.isCore(core.name) && library.hasMethod(companion, call.name, descriptor)) {
                boolean bySuper = call.getOpcode() == Opcodes.INVOKESPECIAL;
                facts.redirected(core.name + "." + call.name + call.desc);
                clones |= call.name.equals("clone");
                String name = call.name;
                String bare = call.desc;
                turnTo(call, companion, name, descriptor);
                if (!isStatic && !bySuper) {
                    remember(core.name, name, bare, call);
                }
                return;
            }
        }
    }

    /**
     * A class of the folder may have a member that a companion stands for, and then it is the one that counts: an interface is made for the member,
     * these classes get it, and the calls go to a made static method that asks for it first.
     */
    void guard() {
        ClassNode guards = Emit.newClass(GUARDS, Opcodes.ACC_PUBLIC | Opcodes.ACC_FINAL, World.OBJECT);
        int count = 0;
        for (Turned each : turned.values()) {
            List<ClassNode> having = having(each);
            if (!having.isEmpty()) {
                guard(guards, each, having, ++count);
            }
        }
        if (count > 0) {
            world.add(guards, World.Origin.MADE);
        }
    }

    private List<ClassNode> having(Turned each) {
        List<ClassNode> found = new ArrayList<>();
        for (ClassNode node : world.from(World.Origin.PROGRAM, World.Origin.LIBRARY, World.Origin.MADE)) {
            if (!node.name.startsWith("varexj/") && world.isBelow(node.name, each.owner)) {
                World.Member member = world.resolve(node.name, each.name, each.descriptor);
                if (member != null && !world.isCore(member.owner.name) && !member.is(Opcodes.ACC_STATIC) && !member.is(Opcodes.ACC_PRIVATE)) {
                    found.add(node);
                    member.method.access = member.method.access & ~Opcodes.ACC_PROTECTED | Opcodes.ACC_PUBLIC;
                }
            }
        }
        return found;
    }

    private void guard(ClassNode guards, Turned each, List<ClassNode> having, int number) {
        ClassNode made = Emit.newClass("varexj/made/Has$" + number, Opcodes.ACC_PUBLIC | Opcodes.ACC_INTERFACE | Opcodes.ACC_ABSTRACT, World.OBJECT);
        made.methods.add(new MethodNode(Opcodes.ACC_PUBLIC | Opcodes.ACC_ABSTRACT, each.name, each.descriptor, null, null));
        world.add(made, World.Origin.MADE);
        for (ClassNode node : having) {
            node.interfaces.add(made.name);
        }
        String descriptor = with(each.owner, each.descriptor);
        String name = each.name + "$" + number;
        Type self = Type.getObjectType(each.owner);
        Type[] types = Type.getArgumentTypes(each.descriptor);
        Type result = Type.getReturnType(each.descriptor);
        Emit code = Emit.in(guards, Opcodes.ACC_PUBLIC | Opcodes.ACC_STATIC, name, descriptor, 0);
        code.method.maxStack = Math.max(code.method.maxLocals, 2);
        Label other = new Label();
        code.load(0, self).type(Opcodes.INSTANCEOF, made.name).jump(Opcodes.IFEQ, other);
        code.load(0, self).type(Opcodes.CHECKCAST, made.name);
        code.loadAll(1, types);
        code.call(Opcodes.INVOKEINTERFACE, made.name, each.name, each.descriptor).returned(result);
        code.same(other).load(0, self);
        code.loadAll(1, types);
        code.call(Opcodes.INVOKESTATIC, companion(each.owner), each.name, descriptor).returned(result);
        for (MethodInsnNode call : each.calls) {
            turnTo(call, GUARDS, name, descriptor);
        }
    }
}
