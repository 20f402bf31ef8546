package varexj.prepare;

import java.util.ArrayList;
import java.util.List;
import org.objectweb.asm.Handle;
import org.objectweb.asm.Opcodes;
import org.objectweb.asm.Type;
import org.objectweb.asm.tree.ClassNode;
import org.objectweb.asm.tree.InvokeDynamicInsnNode;
import org.objectweb.asm.tree.MethodNode;

/**
 * Lambdas and method references: what `LambdaMetafactory` makes at run time is a class here. Its method adapts what it is given as the metafactory
 * does, and calls the method of the lambda, or a static bridge in the class where the lambda stands, which has its access.
 */
final class Lambdas {
    private static final int MARKERS = 2;
    private static final int BRIDGES = 4;
    private static final int SERIALIZABLE = 1;

    private final World world;
    private final ClassNode outer;
    private final InvokeDynamicInsnNode site;
    private final int number;
    private final Type[] captured;
    private final Handle target;
    private final Type erased;
    private final Type instantiated;
    private ClassNode made;
    private String callOwner;
    private String callName;
    private Type callType;

    private Lambdas(World world, ClassNode outer, InvokeDynamicInsnNode site, int number) {
        this.world = world;
        this.outer = outer;
        this.site = site;
        this.number = number;
        this.captured = Type.getArgumentTypes(site.desc);
        this.erased = (Type) site.bsmArgs[0];
        this.target = (Handle) site.bsmArgs[1];
        this.instantiated = (Type) site.bsmArgs[2];
    }

    static boolean isOne(InvokeDynamicInsnNode site) {
        return site.bsm.getOwner().equals("java/lang/invoke/LambdaMetafactory") && site.bsmArgs.length >= 3;
    }

    /** Makes the class of a lambda; gives the name of it. A static method `make` of it takes what is captured. */
    static String make(World world, ClassNode outer, InvokeDynamicInsnNode site, int number) {
        return new Lambdas(world, outer, site, number).made();
    }

    private String made() {
        String type = Type.getReturnType(site.desc).getInternalName();
        made = Emit.newClass(outer.name + "$$L" + number, Opcodes.ACC_FINAL, World.OBJECT, type);
        made.sourceFile = outer.sourceFile;
        for (int at = 0; at < captured.length; at++) {
            made.visitField(Opcodes.ACC_PRIVATE | Opcodes.ACC_FINAL | Emit.MADE, "c" + at, captured[at].getDescriptor(), null, null);
        }
        constructor();
        maker();
        chooseCall();
        method(erased);
        if (site.bsm.getName().equals("altMetafactory")) {
            alternatives();
        }
        world.add(made, World.Origin.MADE);
        return made.name;
    }

    private void alternatives() {
        int flags = (Integer) site.bsmArgs[3];
        int at = 4;
        if ((flags & SERIALIZABLE) != 0) {
            marker("java/io/Serializable");
        }
        if ((flags & MARKERS) != 0) {
            for (int count = (Integer) site.bsmArgs[at++]; count > 0; count--) {
                marker(((Type) site.bsmArgs[at++]).getInternalName());
            }
        }
        if ((flags & BRIDGES) != 0) {
            for (int count = (Integer) site.bsmArgs[at++]; count > 0; count--) {
                Type bridge = (Type) site.bsmArgs[at++];
                if (World.declared(made, site.name, bridge.getDescriptor()) == null) {
                    method(bridge);
                }
            }
        }
    }

    private void marker(String name) {
        if (!made.interfaces.contains(name)) {
            made.interfaces.add(name);
        }
    }

    private void constructor() {
        Emit code = Emit.in(made, Opcodes.ACC_PRIVATE, "<init>", Type.getMethodDescriptor(Type.VOID_TYPE, captured), 3);
        Type self = Type.getObjectType(made.name);
        code.load(0, self).call(Opcodes.INVOKESPECIAL, World.OBJECT, "<init>", "()V");
        int local = 1;
        for (int at = 0; at < captured.length; at++) {
            code.load(0, self).load(local, captured[at]).field(Opcodes.PUTFIELD, made.name, "c" + at, captured[at].getDescriptor());
            local += captured[at].getSize();
        }
        code.op(Opcodes.RETURN);
    }

    /** The static method that stands for the dynamic call. Where nothing is captured there is one object, made at first use. */
    private void maker() {
        String constructor = Type.getMethodDescriptor(Type.VOID_TYPE, captured);
        Emit code = Emit.in(made, Opcodes.ACC_STATIC, "make", site.desc, 2 + sizeOf(captured));
        if (captured.length > 0) {
            code.type(Opcodes.NEW, made.name).op(Opcodes.DUP);
            code.loadAll(0, captured);
            code.call(Opcodes.INVOKESPECIAL, made.name, "<init>", constructor).op(Opcodes.ARETURN);
            return;
        }
        String descriptor = Type.getObjectType(made.name).getDescriptor();
        made.visitField(Opcodes.ACC_PRIVATE | Opcodes.ACC_STATIC | Opcodes.ACC_FINAL | Emit.MADE, "ONE", descriptor, null, null);
        code.field(Opcodes.GETSTATIC, made.name, "ONE", descriptor).op(Opcodes.ARETURN);
        Emit first = Emit.in(made, Opcodes.ACC_STATIC, "<clinit>", "()V", 2);
        first.type(Opcodes.NEW, made.name).op(Opcodes.DUP).call(Opcodes.INVOKESPECIAL, made.name, "<init>", constructor);
        first.field(Opcodes.PUTSTATIC, made.name, "ONE", descriptor).op(Opcodes.RETURN);
    }

    private static int sizeOf(Type[] types) {
        int size = 0;
        for (Type type : types) {
            size += type.getSize();
        }
        return size;
    }

    /** What the made method calls: the static method of the lambda itself, which Nests opens, or a bridge. */
    private void chooseCall() {
        callOwner = outer.name;
        MethodNode own = target.getOwner().equals(outer.name) ? World.declared(outer, target.getName(), target.getDesc()) : null;
        if (target.getTag() == Opcodes.H_INVOKESTATIC && own != null && (own.access & Opcodes.ACC_SYNTHETIC) != 0) {
            callName = own.name;
            callType = Type.getMethodType(own.desc);
            return;
        }
        callName = "varexj$bridge$" + number;
        callType = bridge();
    }

    private Type bridge() {
        Type owner = Type.getObjectType(target.getOwner());
        Type[] parameters = Type.getArgumentTypes(target.getDesc());
        Type result = Type.getReturnType(target.getDesc());
        List<Type> all = new ArrayList<>();
        boolean makes = target.getTag() == Opcodes.H_NEWINVOKESPECIAL;
        if (!makes && target.getTag() != Opcodes.H_INVOKESTATIC) {
            all.add(owner);
        }
        for (Type parameter : parameters) {
            all.add(parameter);
        }
        Type type = Type.getMethodType(makes ? owner : result, all.toArray(new Type[0]));
        int access = Opcodes.ACC_STATIC | (World.isInterface(outer) ? Opcodes.ACC_PUBLIC : 0);
        Emit code = Emit.in(outer, access, callName, type.getDescriptor(), 0);
        code.method.maxStack = Math.max(code.method.maxLocals + (makes ? 2 : 0), 2);
        if (makes) {
            code.type(Opcodes.NEW, target.getOwner()).op(Opcodes.DUP);
        }
        code.loadAll(0, type.getArgumentTypes());
        code.call(opcode(), target.getOwner(), target.getName(), target.getDesc(), target.isInterface());
        code.returned(type.getReturnType());
        return type;
    }

    private int opcode() {
        switch (target.getTag()) {
            case Opcodes.H_INVOKESTATIC:
                return Opcodes.INVOKESTATIC;
            case Opcodes.H_INVOKEINTERFACE:
                return Opcodes.INVOKEINTERFACE;
            case Opcodes.H_INVOKEVIRTUAL:
                return Opcodes.INVOKEVIRTUAL;
            default:
                return Opcodes.INVOKESPECIAL;
        }
    }

    /** The method of the interface, with the descriptor of a method type: it adapts each argument, calls, and adapts the result. */
    private void method(Type type) {
        Type[] given = type.getArgumentTypes();
        Type[] wanted = callType.getArgumentTypes();
        Type[] functional = instantiated.getArgumentTypes();
        Emit code = Emit.in(made, Opcodes.ACC_PUBLIC, site.name, type.getDescriptor(), 0);
        for (int at = 0; at < captured.length; at++) {
            code.load(0, Type.getObjectType(made.name)).field(Opcodes.GETFIELD, made.name, "c" + at, captured[at].getDescriptor());
        }
        int local = 1;
        for (int at = 0; at < given.length; at++) {
            code.load(local, given[at]);
            Convert.argument(code, given[at], wanted[captured.length + at], functional[at]);
            local += given[at].getSize();
        }
        code.call(Opcodes.INVOKESTATIC, callOwner, callName, callType.getDescriptor(), World.isInterface(outer));
        Type result = type.getReturnType();
        if (result.getSort() == Type.VOID) {
            int size = callType.getReturnType().getSize();
            if (size > 0) {
                code.op(size == 2 ? Opcodes.POP2 : Opcodes.POP);
            }
        } else {
            Convert.argument(code, callType.getReturnType(), result, result);
        }
        code.returned(result);
        code.method.maxStack = sizeOf(captured) + sizeOf(given) + sizeOf(wanted) + 4;
    }
}
