package varexj.prepare;

import java.util.TreeSet;
import org.objectweb.asm.Handle;
import org.objectweb.asm.Opcodes;
import org.objectweb.asm.Type;
import org.objectweb.asm.tree.AbstractInsnNode;
import org.objectweb.asm.tree.ClassNode;
import org.objectweb.asm.tree.FieldInsnNode;
import org.objectweb.asm.tree.IntInsnNode;
import org.objectweb.asm.tree.InvokeDynamicInsnNode;
import org.objectweb.asm.tree.LdcInsnNode;
import org.objectweb.asm.tree.LineNumberNode;
import org.objectweb.asm.tree.MethodInsnNode;
import org.objectweb.asm.tree.MethodNode;
import org.objectweb.asm.tree.MultiANewArrayInsnNode;
import org.objectweb.asm.tree.TypeInsnNode;

/** Says where a run would end `unsupported`: in the words of the end, with class, method and line. */
final class Doctor {
    private final World world;
    private final Reach reach;
    private final Facts facts;
    private final boolean all;
    private ClassNode node;
    private MethodNode method;
    private boolean lacking;
    private String last;

    private Doctor(World world, Reach reach, Facts facts, boolean all) {
        this.world = world;
        this.reach = reach;
        this.facts = facts;
        this.all = all;
    }

    /** Adds what is lacking to the facts; gives whether a reached place of the program lacks anything. */
    static boolean examine(World world, Reach reach, Facts facts, boolean all) {
        Doctor doctor = new Doctor(world, reach, facts, all);
        for (ClassNode node : world.from(World.Origin.PROGRAM, World.Origin.MADE, World.Origin.LIBRARY)) {
            doctor.node = node;
            for (MethodNode method : node.methods) {
                doctor.method = method;
                if (all || reach.has(method)) {
                    doctor.examine();
                }
            }
            doctor.identity();
        }
        return doctor.lacking;
    }

    /** The hash of an object may be asked for, or its text with the hash in it, and that is a number which a Java machine chooses anew in each run. */
    private void identity() {
        if (world.origin(node.name) == World.Origin.PROGRAM && reach.makes(node.name) && isNumbered(node.name)) {
            loose(world.select(node.name, Objects.HASH, Objects.HASH_TYPE));
            loose(world.select(node.name, Objects.TEXT, Objects.TEXT_TYPE));
        }
    }

    private void loose(World.Member member) {
        if (Objects.isIdentity(member.method) && reach.has(member.method)) {
            facts.add("loose identity " + node.name + "." + member.method.name + " -");
        }
    }

    /** Whether the hash of an object of this class is a number by first use. */
    private boolean isNumbered(String type) {
        World.Member hash = world.select(type, Objects.HASH, Objects.HASH_TYPE);
        return hash != null && Objects.isIdentity(hash.method);
    }

    /** A call of the program that gives such a number, or a text with one in it. */
    private void identity(MethodInsnNode at) {
        boolean ofProgram = world.origin(node.name) == World.Origin.PROGRAM && reach.has(method) && !Objects.isIdentity(method);
        boolean gives = at.name.equals("identityHashCode") || at.name.equals("identityToString") && isNumberedBelow(node.name);
        if (ofProgram && gives && at.owner.startsWith("varexj/lang/")) {
            facts.add("loose identity " + node.name + "." + method.name + " " + last);
        }
    }

    private boolean isNumberedBelow(String type) {
        for (ClassNode each : world.from(World.Origin.PROGRAM)) {
            if (reach.makes(each.name) && world.isBelow(each.name, type) && isNumbered(each.name)) {
                return true;
            }
        }
        return false;
    }

    private void examine() {
        last = "-";
        for (AbstractInsnNode at : method.instructions) {
            if (at instanceof LineNumberNode) {
                last = String.valueOf(((LineNumberNode) at).line);
            } else if (isFloat(at)) {
                lacks("float -");
            } else if (at instanceof FieldInsnNode) {
                field((FieldInsnNode) at);
            } else if (at instanceof MethodInsnNode) {
                call((MethodInsnNode) at);
            } else if (at instanceof InvokeDynamicInsnNode) {
                lacks("dynamic -");
            } else if (at instanceof LdcInsnNode) {
                constant(((LdcInsnNode) at).cst);
            } else if (at instanceof TypeInsnNode && isThere(((TypeInsnNode) at).desc) && at.getOpcode() == Opcodes.NEW) {
                initialised(((TypeInsnNode) at).desc);
            } else if (at instanceof MultiANewArrayInsnNode) {
                isThere(((MultiANewArrayInsnNode) at).desc);
            }
        }
    }

    private void lacks(String what) {
        boolean isReached = reach.has(method);
        boolean ofProgram = world.origin(node.name) != World.Origin.LIBRARY && !node.name.startsWith("varexj/");
        if (ofProgram || isReached) {
            lacking |= ofProgram && isReached;
            facts.add((ofProgram ? "lacks" : "partly") + " unsupported " + what + " " + node.name + "." + method.name + " " + last
                    + (isReached ? " reached" : " unreached"));
        }
    }

    /** Whether the instruction is one of floats or doubles, in the order of the table of instructions (JVMS 7). */
    private static boolean isFloat(AbstractInsnNode at) {
        int code = at.getOpcode();
        if (at instanceof FieldInsnNode) {
            String descriptor = ((FieldInsnNode) at).desc;
            return descriptor.equals("F") || descriptor.equals("D");
        }
        if (at instanceof LdcInsnNode) {
            return ((LdcInsnNode) at).cst instanceof Float || ((LdcInsnNode) at).cst instanceof Double;
        }
        if (code == Opcodes.NEWARRAY) {
            return ((IntInsnNode) at).operand == Opcodes.T_FLOAT || ((IntInsnNode) at).operand == Opcodes.T_DOUBLE;
        }
        return code >= Opcodes.FCONST_0 && code <= Opcodes.DCONST_1 || code == Opcodes.FLOAD || code == Opcodes.DLOAD
                || code == Opcodes.FALOAD || code == Opcodes.DALOAD || code == Opcodes.FSTORE || code == Opcodes.DSTORE
                || code == Opcodes.FASTORE || code == Opcodes.DASTORE
                || code >= Opcodes.IADD && code <= Opcodes.DNEG && (code - Opcodes.IADD) % 4 >= 2
                || code == Opcodes.I2F || code == Opcodes.I2D || code == Opcodes.L2F || code == Opcodes.L2D
                || code >= Opcodes.F2I && code <= Opcodes.D2F || code >= Opcodes.FCMPL && code <= Opcodes.DCMPG
                || code == Opcodes.FRETURN || code == Opcodes.DRETURN;
    }

    /** Whether a class or array is there; else that is told. */
    private boolean isThere(String name) {
        Type type = Type.getObjectType(name);
        Type element = type.getSort() == Type.ARRAY ? type.getElementType() : type;
        if (element.getSort() == Type.OBJECT && !world.has(element.getInternalName())) {
            lacks("class " + name);
            return false;
        }
        return true;
    }

    private void constant(Object value) {
        if (value instanceof Handle || value instanceof Type && ((Type) value).getSort() == Type.METHOD) {
            lacks("constant -");
        } else if (value instanceof Type) {
            isThere(((Type) value).getInternalName());
        }
    }

    private void field(FieldInsnNode at) {
        if (!isThere(at.owner)) {
            return;
        }
        ClassNode owner = world.fieldOwner(at.owner, at.name, at.desc);
        if (owner == null) {
            lacks("field " + at.owner + "." + at.name + ":" + at.desc);
        } else if (at.getOpcode() == Opcodes.GETSTATIC || at.getOpcode() == Opcodes.PUTSTATIC) {
            initialised(owner.name);
        }
    }

    private void call(MethodInsnNode at) {
        if (!isThere(at.owner)) {
            return;
        }
        boolean ofArray = at.owner.startsWith("[");
        World.Member member = world.resolve(at.owner, at.name, at.desc);
        if (member == null) {
            if (!ofArray || !at.name.equals("clone")) {
                lacks("method " + at.owner + "." + at.name + at.desc);
            }
            return;
        }
        boolean selects = at.getOpcode() == Opcodes.INVOKEVIRTUAL || at.getOpcode() == Opcodes.INVOKEINTERFACE;
        if (at.getOpcode() == Opcodes.INVOKESTATIC) {
            identity(at);
            initialised(member.owner.name);
        }
        if (!selects || ofArray || !reach.has(method)) {
            ending(member);
            return;
        }
        TreeSet<String> told = new TreeSet<>();
        for (World.Member target : reach.targets(at.owner, at.name, at.desc)) {
            if (told.add(target.owner.name)) {
                ending(target);
            }
        }
    }

    /** A native method of the folder, or one that the core leaves out. */
    private void ending(World.Member member) {
        boolean isNative = member.is(Opcodes.ACC_NATIVE) && !world.isCore(member.owner.name);
        if (isNative || world.isRefused(member.method)) {
            lacks("native " + member.owner.name + "." + member.method.name + member.method.desc);
        }
    }

    /** An interface with an initialiser and a method that is neither abstract nor static, above a class that is initialised. */
    private void initialised(String name) {
        for (ClassNode above : world.interfaces(name)) {
            if (World.declared(above, "<clinit>", "()V") != null) {
                for (MethodNode each : above.methods) {
                    if ((each.access & (Opcodes.ACC_ABSTRACT | Opcodes.ACC_STATIC)) == 0) {
                        lacks("class " + above.name);
                        break;
                    }
                }
            }
        }
    }
}
