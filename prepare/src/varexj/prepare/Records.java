package varexj.prepare;

import org.objectweb.asm.Handle;
import org.objectweb.asm.Label;
import org.objectweb.asm.Opcodes;
import org.objectweb.asm.Type;
import org.objectweb.asm.tree.ClassNode;
import org.objectweb.asm.tree.InvokeDynamicInsnNode;

/** The methods of records (java.lang.runtime.ObjectMethods): `toString`, `hashCode` and `equals` over the components, as the Java machine does them. */
final class Records {
    private static final String OBJECTS = "Ljava/lang/Object;";

    private final World world;
    private final ClassNode node;
    private final InvokeDynamicInsnNode site;
    private final Type self;
    private final Handle[] components;
    private Emit code;

    private Records(World world, ClassNode node, InvokeDynamicInsnNode site) {
        this.world = world;
        this.node = node;
        this.site = site;
        this.self = (Type) site.bsmArgs[0];
        this.components = new Handle[site.bsmArgs.length - 2];
        System.arraycopy(site.bsmArgs, 2, components, 0, components.length);
    }

    /** Makes the static method of a call; gives its name. */
    static String make(World world, ClassNode node, InvokeDynamicInsnNode site, int number) {
        String name = "varexj$record$" + number;
        Records made = new Records(world, node, site);
        made.code = Emit.in(node, Dynamics.access(node), name, site.desc, 6);
        if (site.name.equals("toString")) {
            made.text();
        } else if (site.name.equals("hashCode")) {
            made.hash();
        } else {
            made.equality();
        }
        return name;
    }

    private void component(int local, int at) {
        code.load(local, self).field(Opcodes.GETFIELD, components[at].getOwner(), components[at].getName(), components[at].getDesc());
    }

    private void text() {
        String[] names = ((String) site.bsmArgs[1]).split(";");
        String append = "(Ljava/lang/String;)Ljava/lang/StringBuilder;";
        code.type(Opcodes.NEW, Emit.BUILDER).op(Opcodes.DUP);
        code.text(Names.of(node).simple).call(Opcodes.INVOKESPECIAL, Emit.BUILDER, "<init>", "(Ljava/lang/String;)V");
        for (int at = 0; at < components.length; at++) {
            code.text((at == 0 ? "[" : ", ") + names[at] + "=").call(Opcodes.INVOKEVIRTUAL, Emit.BUILDER, "append", append);
            component(0, at);
            Dynamics.append(world, code, Type.getType(components[at].getDesc()));
        }
        code.text(components.length == 0 ? "[]" : "]").call(Opcodes.INVOKEVIRTUAL, Emit.BUILDER, "append", append);
        code.call(Opcodes.INVOKEVIRTUAL, Emit.BUILDER, "toString", "()Ljava/lang/String;").op(Opcodes.ARETURN);
    }

    /** 31 times what is there and the hash of the component, from 0 on. */
    private void hash() {
        code.number(0);
        for (int at = 0; at < components.length; at++) {
            code.number(31).op(Opcodes.IMUL);
            hashOf(at, Type.getType(components[at].getDesc()));
            code.op(Opcodes.IADD);
        }
        code.op(Opcodes.IRETURN);
    }

    private void hashOf(int at, Type type) {
        component(0, at);
        if (type.getSort() == Type.LONG) {
            code.op(Opcodes.DUP2).number(32).op(Opcodes.LUSHR).op(Opcodes.LXOR).op(Opcodes.L2I);
            code.method.maxStack = 8;
        } else if (type.getSort() == Type.BOOLEAN) {
            code.number(1237 - 1231).op(Opcodes.IMUL).number(1237).op(Opcodes.SWAP).op(Opcodes.ISUB);
        } else if (type.getSort() == Type.FLOAT || type.getSort() == Type.DOUBLE) {
            String wrapper = Convert.wrapper(type);
            code.call(Opcodes.INVOKESTATIC, wrapper, "hashCode", Type.getMethodDescriptor(Type.INT_TYPE, type));
        } else if (type.getSort() >= Type.ARRAY) {
            code.call(Opcodes.INVOKESTATIC, Texts.NAME, "hash", "(Ljava/lang/Object;)I");
        }
    }

    private void equality() {
        Label no = new Label();
        Label yes = new Label();
        code.load(0, self).load(1, self).jump(Opcodes.IF_ACMPEQ, yes);
        code.load(1, self).type(Opcodes.INSTANCEOF, self.getInternalName()).jump(Opcodes.IFEQ, no);
        for (int at = 0; at < components.length; at++) {
            Type type = Type.getType(components[at].getDesc());
            component(0, at);
            code.load(1, self).type(Opcodes.CHECKCAST, self.getInternalName());
            code.field(Opcodes.GETFIELD, components[at].getOwner(), components[at].getName(), components[at].getDesc());
            compare(type, no);
        }
        code.same(yes).number(1).op(Opcodes.IRETURN);
        code.same(no).number(0).op(Opcodes.IRETURN);
    }

    private void compare(Type type, Label no) {
        if (type.getSort() >= Type.ARRAY) {
            code.call(Opcodes.INVOKESTATIC, Texts.NAME, "same", "(" + OBJECTS + OBJECTS + ")Z").jump(Opcodes.IFEQ, no);
        } else if (type.getSort() == Type.LONG) {
            code.op(Opcodes.LCMP).jump(Opcodes.IFNE, no);
        } else if (type.getSort() == Type.FLOAT || type.getSort() == Type.DOUBLE) {
            code.call(Opcodes.INVOKESTATIC, Convert.wrapper(type), "compare", Type.getMethodDescriptor(Type.INT_TYPE, type, type)).jump(Opcodes.IFNE, no);
        } else {
            code.jump(Opcodes.IF_ICMPNE, no);
        }
    }
}
