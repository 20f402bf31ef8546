package varexj.prepare;

import org.objectweb.asm.Opcodes;
import org.objectweb.asm.Type;
import org.objectweb.asm.tree.AbstractInsnNode;
import org.objectweb.asm.tree.FrameNode;
import org.objectweb.asm.tree.InsnNode;
import org.objectweb.asm.tree.MethodInsnNode;
import org.objectweb.asm.tree.MethodNode;
import org.objectweb.asm.tree.TypeInsnNode;

/** `new Integer(..)` and `new Boolean(..)`, which the core can't make, as calls of `valueOf`: only where that was asked for, since `==` may see it. */
final class Boxes {
    private Boxes() {
    }

    static boolean isOne(MethodInsnNode call) {
        return call.desc.equals("(I)V") && call.owner.equals("java/lang/Integer") || call.desc.equals("(Z)V") && call.owner.equals("java/lang/Boolean");
    }

    /** Turns a constructor into `valueOf`, and drops the `new` and `dup` that belong to it. Gives whether they were found. */
    static boolean byValue(MethodNode method, MethodInsnNode call) {
        int inner = 0;
        for (AbstractInsnNode at = call.getPrevious(); at != null; at = at.getPrevious()) {
            if (at instanceof FrameNode) {
                return false;
            }
            if (at instanceof MethodInsnNode && ((MethodInsnNode) at).name.equals("<init>") && at.getOpcode() == Opcodes.INVOKESPECIAL) {
                inner++;
            } else if (at.getOpcode() == Opcodes.NEW && inner > 0) {
                inner--;
            } else if (at.getOpcode() == Opcodes.NEW) {
                AbstractInsnNode next = at.getNext();
                if (!((TypeInsnNode) at).desc.equals(call.owner) || next.getOpcode() != Opcodes.DUP) {
                    return false;
                }
                method.instructions.set(next, new InsnNode(Opcodes.NOP));
                method.instructions.set(at, new InsnNode(Opcodes.NOP));
                Type argument = Type.getArgumentTypes(call.desc)[0];
                call.setOpcode(Opcodes.INVOKESTATIC);
                call.name = "valueOf";
                call.desc = Type.getMethodDescriptor(Type.getObjectType(call.owner), argument);
                return true;
            }
        }
        return false;
    }
}
