package varexj.prepare;

import org.objectweb.asm.Label;
import org.objectweb.asm.Opcodes;
import org.objectweb.asm.Type;
import org.objectweb.asm.tree.ClassNode;
import org.objectweb.asm.tree.MethodNode;

/** A made method, written instruction by instruction. Its greatest stack is given, and its frames are written by hand. */
final class Emit {
    static final String STRING = "java/lang/String";
    static final String BUILDER = "java/lang/StringBuilder";
    static final int MADE = Opcodes.ACC_SYNTHETIC;

    final MethodNode method;

    private Emit(MethodNode method) {
        this.method = method;
    }

    /** Begins a method of a class. What it needs of the stack is {@code stack}; of the locals, those of its descriptor. */
    static Emit in(ClassNode node, int access, String name, String descriptor, int stack) {
        MethodNode method = new MethodNode(access | MADE, name, descriptor, null, null);
        method.maxStack = stack;
        method.maxLocals = (Type.getArgumentsAndReturnSizes(descriptor) >> 2) - ((access & Opcodes.ACC_STATIC) != 0 ? 1 : 0);
        node.methods.add(method);
        return new Emit(method);
    }

    static ClassNode newClass(String name, int access, String above, String... interfaces) {
        ClassNode node = new ClassNode();
        node.version = Opcodes.V1_8;
        node.access = access | MADE | ((access & Opcodes.ACC_INTERFACE) == 0 ? Opcodes.ACC_SUPER : 0);
        node.name = name;
        node.superName = above;
        for (String each : interfaces) {
            node.interfaces.add(each);
        }
        return node;
    }

    /** A constructor of no arguments that calls that of the superclass. */
    static void constructor(ClassNode node) {
        Emit code = in(node, Opcodes.ACC_PRIVATE, "<init>", "()V", 1);
        code.load(0, Type.getObjectType(node.name)).call(Opcodes.INVOKESPECIAL, node.superName, "<init>", "()V").op(Opcodes.RETURN);
    }

    Emit locals(int count) {
        method.maxLocals = Math.max(method.maxLocals, count);
        return this;
    }

    Emit op(int opcode) {
        method.visitInsn(opcode);
        return this;
    }

    Emit load(int local, Type type) {
        method.visitVarInsn(type.getOpcode(Opcodes.ILOAD), local);
        return this;
    }

    Emit text(String text) {
        method.visitLdcInsn(text);
        return this;
    }

    Emit literal(String type) {
        method.visitLdcInsn(Type.getObjectType(type));
        return this;
    }

    Emit number(int number) {
        if (number >= -1 && number <= 5) {
            method.visitInsn(Opcodes.ICONST_0 + number);
        } else if (number >= Short.MIN_VALUE && number <= Short.MAX_VALUE) {
            method.visitIntInsn(number >= Byte.MIN_VALUE && number <= Byte.MAX_VALUE ? Opcodes.BIPUSH : Opcodes.SIPUSH, number);
        } else {
            method.visitLdcInsn(number);
        }
        return this;
    }

    Emit type(int opcode, String type) {
        method.visitTypeInsn(opcode, type);
        return this;
    }

    Emit field(int opcode, String owner, String name, String descriptor) {
        method.visitFieldInsn(opcode, owner, name, descriptor);
        return this;
    }

    Emit call(int opcode, String owner, String name, String descriptor) {
        method.visitMethodInsn(opcode, owner, name, descriptor, opcode == Opcodes.INVOKEINTERFACE);
        return this;
    }

    Emit call(int opcode, String owner, String name, String descriptor, boolean isInterface) {
        method.visitMethodInsn(opcode, owner, name, descriptor, isInterface);
        return this;
    }

    Emit jump(int opcode, Label label) {
        method.visitJumpInsn(opcode, label);
        return this;
    }

    /** Places a label with the frame of the method's beginning. */
    Emit same(Label label) {
        method.visitLabel(label);
        method.visitFrame(Opcodes.F_SAME, 0, null, 0, null);
        return this;
    }

    Emit returned(Type type) {
        method.visitInsn(type.getOpcode(Opcodes.IRETURN));
        return this;
    }

    /** Loads all parameters from a local on; gives the local behind them. */
    int loadAll(int local, Type... types) {
        for (Type type : types) {
            load(local, type);
            local += type.getSize();
        }
        return local;
    }
}
