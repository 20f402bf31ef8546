package varexj.prepare;

import java.util.ArrayList;
import java.util.HashSet;
import java.util.List;
import java.util.Set;
import org.objectweb.asm.Label;
import org.objectweb.asm.Opcodes;
import org.objectweb.asm.Type;
import org.objectweb.asm.tree.AbstractInsnNode;
import org.objectweb.asm.tree.ClassNode;
import org.objectweb.asm.tree.FieldNode;
import org.objectweb.asm.tree.MethodInsnNode;
import org.objectweb.asm.tree.MethodNode;

/** What the machine's Object, Class and Iterator leave out, given to each class: its class object, a hash, a text, a copy, `remove`. */
final class Objects {
    static final String CLASS_OF = "varexj/lang/ClassOf";
    static final String IDENTITY = "varexj/lang/Identity";
    static final String COPIED = "varexj/lang/Copied";
    static final String MEMBERS = "varexj/lang/ObjectMembers";
    private static final String CLONEABLE = "java/lang/Cloneable";
    private static final String ITERATOR = "java/util/Iterator";
    private static final String NUMBER = "varexj$identity";
    static final String HASH = "hashCode";
    static final String HASH_TYPE = "()I";
    static final String TEXT = "toString";
    static final String TEXT_TYPE = "()Ljava/lang/String;";

    private final World world;
    private final ClassNode node;
    private final Type self;

    private Objects(World world, ClassNode node) {
        this.world = world;
        this.node = node;
        this.self = Type.getObjectType(node.name);
    }

    /** Completes a class that is no interface. */
    static void complete(World world, ClassNode node) {
        if (!World.isInterface(node) && !node.name.startsWith("varexj/")) {
            new Objects(world, node).complete();
        }
    }

    private boolean isAbstract() {
        return (node.access & Opcodes.ACC_ABSTRACT) != 0;
    }

    private void complete() {
        boolean first = world.isCore(node.superName);
        if (!isAbstract()) {
            add(CLASS_OF);
            Emit code = Emit.in(node, Opcodes.ACC_PUBLIC, "varexjClass", "()Ljava/lang/Class;", 1);
            code.literal(node.name).op(Opcodes.ARETURN);
            iterator();
        }
        if (first && isRefused(HASH, HASH_TYPE)) {
            hash();
        }
        trace();
        if (first && isRefused(TEXT, TEXT_TYPE)) {
            Emit code = Emit.in(node, Opcodes.ACC_PUBLIC, TEXT, TEXT_TYPE, 1);
            code.load(0, self).call(Opcodes.INVOKESTATIC, MEMBERS, "identityToString", "(Ljava/lang/Object;)Ljava/lang/String;").op(Opcodes.ARETURN);
        }
    }

    private boolean isRefused(String name, String descriptor) {
        World.Member member = world.resolve(node.name, name, descriptor);
        return member != null && world.isRefused(member.method);
    }

    private void add(String type) {
        if (!node.interfaces.contains(type)) {
            node.interfaces.add(type);
        }
    }

    /** A hash of its own, a number by first use. That of an enum is final on a Java machine: only the companion gives it. */
    private void hash() {
        if (world.isBelow(node.name, "java/lang/Enum")) {
            return;
        }
        Emit code = Emit.in(node, Opcodes.ACC_PUBLIC, HASH, HASH_TYPE, 3);
        add(IDENTITY);
        node.visitField(Opcodes.ACC_PRIVATE | Emit.MADE, NUMBER, "I", null, null);
        code.load(0, self).call(Opcodes.INVOKEVIRTUAL, node.name, "varexjIdentity", "()I").op(Opcodes.IRETURN);
        Label there = new Label();
        Emit number = Emit.in(node, Opcodes.ACC_PUBLIC, "varexjIdentity", "()I", 2);
        number.load(0, self).field(Opcodes.GETFIELD, node.name, NUMBER, "I").jump(Opcodes.IFNE, there);
        number.load(0, self).call(Opcodes.INVOKESTATIC, MEMBERS, "nextIdentity", "()I").field(Opcodes.PUTFIELD, node.name, NUMBER, "I");
        number.same(there).load(0, self).field(Opcodes.GETFIELD, node.name, NUMBER, "I").op(Opcodes.IRETURN);
    }

    /**
     * A Java machine's constructor of a throwable calls `fillInStackTrace`, and the machine's doesn't. So the constructors of a class whose own one does
     * anything end the run.
     */
    private void trace() {
        MethodNode own = World.declared(node, "fillInStackTrace", "()Ljava/lang/Throwable;");
        if (own == null || !world.isBelow(node.name, "java/lang/Throwable") || isPlain(own)) {
            return;
        }
        for (MethodNode method : node.methods) {
            if (method.name.equals("<init>")) {
                method.instructions.insert(new MethodInsnNode(Opcodes.INVOKESTATIC, Trim.UNREACHED, "end", "()V", false));
            }
        }
    }

    /** Whether a method only gives `this`, or what `super` gives. */
    private static boolean isPlain(MethodNode method) {
        for (AbstractInsnNode at : method.instructions) {
            boolean bySuper = at.getOpcode() == Opcodes.INVOKESPECIAL && ((MethodInsnNode) at).name.equals(method.name);
            if (at.getOpcode() >= 0 && at.getOpcode() != Opcodes.ALOAD && at.getOpcode() != Opcodes.ARETURN && !bySuper) {
                return false;
            }
        }
        return true;
    }

    /** Iterator's `remove` has a body since Java 8, which the machine's hasn't. */
    private void iterator() {
        World.Member member = world.isBelow(node.name, ITERATOR) ? world.select(node.name, "remove", "()V") : null;
        if (member != null && member.owner.name.equals(ITERATOR)) {
            String thrown = "java/lang/UnsupportedOperationException";
            Emit code = Emit.in(node, Opcodes.ACC_PUBLIC, "remove", "()V", 3);
            code.type(Opcodes.NEW, thrown).op(Opcodes.DUP).text("remove");
            code.call(Opcodes.INVOKESPECIAL, thrown, "<init>", "(Ljava/lang/String;)V").op(Opcodes.ATHROW);
        }
    }

    /** Gives each class below Cloneable, as far as its superclasses keep nothing that can't be copied, what `super.clone()` needs. */
    static void copies(World world, List<ClassNode> nodes) {
        Set<String> done = new HashSet<>();
        for (ClassNode node : nodes) {
            if (!World.isInterface(node) && world.isBelow(node.name, CLONEABLE) && canCopy(world, node)) {
                for (ClassNode above : world.chain(node.name)) {
                    if (!world.isCore(above.name) && done.add(above.name)) {
                        new Objects(world, above).copyConstructor();
                    }
                }
                if ((node.access & Opcodes.ACC_ABSTRACT) == 0) {
                    new Objects(world, node).copy();
                }
            }
        }
    }

    private static boolean canCopy(World world, ClassNode node) {
        for (ClassNode above : world.chain(node.name)) {
            if (world.isCore(above.name)) {
                return above.name.equals(World.OBJECT) || above.name.equals("java/lang/Number");
            }
        }
        return false;
    }

    private static String copying(String name) {
        return "(L" + name + ";L" + COPIED + ";)V";
    }

    private void copy() {
        add(COPIED);
        Emit code = Emit.in(node, Opcodes.ACC_PUBLIC, "varexjCopy", "()Ljava/lang/Object;", 4);
        code.type(Opcodes.NEW, node.name).op(Opcodes.DUP).load(0, self).op(Opcodes.ACONST_NULL);
        code.call(Opcodes.INVOKESPECIAL, node.name, "<init>", copying(node.name)).op(Opcodes.ARETURN);
    }

    private void copyConstructor() {
        Emit code = Emit.in(node, 0, "<init>", copying(node.name), 3);
        code.method.access = Opcodes.ACC_PROTECTED | Emit.MADE;
        code.load(0, self);
        if (world.isCore(node.superName)) {
            code.call(Opcodes.INVOKESPECIAL, node.superName, "<init>", "()V");
        } else {
            code.load(1, self).op(Opcodes.ACONST_NULL).call(Opcodes.INVOKESPECIAL, node.superName, "<init>", copying(node.superName));
        }
        for (FieldNode field : new ArrayList<>(node.fields)) {
            if ((field.access & Opcodes.ACC_STATIC) == 0 && !field.name.equals(NUMBER)) {
                code.load(0, self).load(1, self).field(Opcodes.GETFIELD, node.name, field.name, field.desc);
                code.field(Opcodes.PUTFIELD, node.name, field.name, field.desc);
                code.method.maxStack = 4;
            }
        }
        code.op(Opcodes.RETURN);
    }

    /** Whether a method is the hash or the text that a class was given because it has none of its own. */
    static boolean isIdentity(MethodNode method) {
        boolean isHash = method.name.equals(HASH) && method.desc.equals(HASH_TYPE);
        return (method.access & Opcodes.ACC_SYNTHETIC) != 0 && (isHash || method.name.equals(TEXT) && method.desc.equals(TEXT_TYPE));
    }
}
