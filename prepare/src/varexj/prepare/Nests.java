package varexj.prepare;

import java.util.ArrayList;
import java.util.HashMap;
import java.util.List;
import java.util.Map;
import org.objectweb.asm.Opcodes;
import org.objectweb.asm.tree.AbstractInsnNode;
import org.objectweb.asm.tree.ClassNode;
import org.objectweb.asm.tree.FieldInsnNode;
import org.objectweb.asm.tree.FieldNode;
import org.objectweb.asm.tree.MethodInsnNode;
import org.objectweb.asm.tree.MethodNode;

/**
 * Private members that a nest mate uses. Before Java 11 nothing outside of a class may use them, so they lose `private`; a private method of objects
 * also gets a name of its own, so that nothing overrides it. A call of an own private method becomes `invokespecial`.
 */
final class Nests {
    private final World world;
    private final Map<MethodNode, String> renamed = new HashMap<>();
    private final Map<MethodInsnNode, MethodNode> calls = new HashMap<>();

    private Nests(World world) {
        this.world = world;
    }

    static void open(World world, List<ClassNode> nodes) {
        Nests nests = new Nests(world);
        for (ClassNode node : nodes) {
            for (MethodNode method : node.methods) {
                for (AbstractInsnNode at : method.instructions.toArray()) {
                    if (at instanceof MethodInsnNode) {
                        nests.call(node, (MethodInsnNode) at);
                    } else if (at instanceof FieldInsnNode) {
                        nests.field(node, (FieldInsnNode) at);
                    }
                }
            }
        }
        nests.rename();
    }

    private void field(ClassNode node, FieldInsnNode at) {
        ClassNode owner = world.fieldOwner(at.owner, at.name, at.desc);
        if (owner != null && owner != node && !world.isCore(owner.name)) {
            FieldNode field = world.field(at.owner, at.name, at.desc);
            field.access &= ~Opcodes.ACC_PRIVATE;
        }
    }

    private void call(ClassNode node, MethodInsnNode at) {
        World.Member member = at.owner.startsWith("[") ? null : world.resolve(at.owner, at.name, at.desc);
        if (member == null || !member.is(Opcodes.ACC_PRIVATE)) {
            return;
        }
        boolean ofObjects = !member.is(Opcodes.ACC_STATIC) && !at.name.equals("<init>");
        if (member.owner == node) {
            if (ofObjects) {
                calls.put(at, member.method);
            }
            return;
        }
        if (ofObjects) {
            renamed.put(member.method, at.name + "$" + member.owner.name.replace('/', '$'));
            calls.put(at, member.method);
        } else {
            member.method.access &= ~Opcodes.ACC_PRIVATE;
            member.method.access |= World.isInterface(member.owner) ? Opcodes.ACC_PUBLIC : 0;
        }
    }

    private void rename() {
        for (Map.Entry<MethodInsnNode, MethodNode> each : new ArrayList<>(calls.entrySet())) {
            String name = renamed.get(each.getValue());
            MethodInsnNode at = each.getKey();
            if (name != null) {
                at.name = name;
            } else if (at.getOpcode() == Opcodes.INVOKEVIRTUAL || at.getOpcode() == Opcodes.INVOKEINTERFACE) {
                at.setOpcode(Opcodes.INVOKESPECIAL);
            }
        }
        for (ClassNode node : world.from(World.Origin.PROGRAM)) {
            for (MethodNode method : node.methods) {
                String name = renamed.get(method);
                if (name != null) {
                    method.name = name;
                    method.access &= ~Opcodes.ACC_PRIVATE;
                    method.access |= World.isInterface(node) ? Opcodes.ACC_PUBLIC : Opcodes.ACC_FINAL;
                }
            }
        }
    }
}
