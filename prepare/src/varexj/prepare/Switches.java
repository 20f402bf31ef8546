package varexj.prepare;

import org.objectweb.asm.ConstantDynamic;
import org.objectweb.asm.Label;
import org.objectweb.asm.Opcodes;
import org.objectweb.asm.Type;
import org.objectweb.asm.tree.ClassNode;
import org.objectweb.asm.tree.InvokeDynamicInsnNode;

/**
 * Switches over patterns (java.lang.runtime.SwitchBootstraps): a made static method gives the index of the first label from a start on that takes the
 * object, the number of labels where none does, and -1 for null.
 */
final class Switches {
    private static final Type OBJECT = Type.getObjectType(World.OBJECT);

    private final InvokeDynamicInsnNode site;
    private Emit code;
    private Label next;

    private Switches(InvokeDynamicInsnNode site) {
        this.site = site;
    }

    /** Makes the method of a call; gives its name, or null where a label is of no known kind. */
    static String make(ClassNode node, InvokeDynamicInsnNode site, int number) {
        for (Object label : site.bsmArgs) {
            if (label instanceof ConstantDynamic && enumConstant((ConstantDynamic) label) == null) {
                return null;
            }
        }
        String name = "varexj$switch$" + number;
        Switches made = new Switches(site);
        made.code = Emit.in(node, Dynamics.access(node), name, site.desc, 2);
        made.body();
        return name;
    }

    private void body() {
        Label there = new Label();
        code.load(0, OBJECT).jump(Opcodes.IFNONNULL, there).number(-1).op(Opcodes.IRETURN).same(there);
        for (int at = 0; at < site.bsmArgs.length; at++) {
            next = new Label();
            code.load(1, Type.INT_TYPE).number(at).jump(Opcodes.IF_ICMPGT, next);
            test(site.bsmArgs[at]);
            code.number(at).op(Opcodes.IRETURN).same(next);
        }
        code.number(site.bsmArgs.length).op(Opcodes.IRETURN);
    }

    /** Jumps to the next label where this one doesn't take the object. */
    private void test(Object label) {
        if (label instanceof Type) {
            code.load(0, OBJECT).type(Opcodes.INSTANCEOF, ((Type) label).getInternalName()).jump(Opcodes.IFEQ, next);
        } else if (label instanceof String && site.name.equals("enumSwitch")) {
            constantNamed((String) label);
        } else if (label instanceof String) {
            code.text((String) label).load(0, OBJECT).call(Opcodes.INVOKEVIRTUAL, World.OBJECT, "equals", "(Ljava/lang/Object;)Z");
            code.jump(Opcodes.IFEQ, next);
        } else if (label instanceof Integer) {
            number((Integer) label);
        } else {
            String[] words = enumConstant((ConstantDynamic) label);
            code.load(0, OBJECT).type(Opcodes.INSTANCEOF, words[0]).jump(Opcodes.IFEQ, next);
            constantNamed(words[1]);
        }
    }

    private void constantNamed(String name) {
        code.load(0, OBJECT).type(Opcodes.CHECKCAST, "java/lang/Enum").call(Opcodes.INVOKEVIRTUAL, "java/lang/Enum", "name", "()Ljava/lang/String;");
        code.text(name).call(Opcodes.INVOKEVIRTUAL, World.OBJECT, "equals", "(Ljava/lang/Object;)Z").jump(Opcodes.IFEQ, next);
    }

    /** A label that is a number takes a Number of that value, and a Character of that unit. */
    private void number(int label) {
        Label character = new Label();
        Label taken = new Label();
        code.load(0, OBJECT).type(Opcodes.INSTANCEOF, "java/lang/Number").jump(Opcodes.IFEQ, character);
        code.load(0, OBJECT).type(Opcodes.CHECKCAST, "java/lang/Number").call(Opcodes.INVOKEVIRTUAL, "java/lang/Number", "intValue", "()I");
        code.number(label).jump(Opcodes.IF_ICMPNE, next).jump(Opcodes.GOTO, taken);
        code.same(character).load(0, OBJECT).type(Opcodes.INSTANCEOF, "java/lang/Character").jump(Opcodes.IFEQ, next);
        code.load(0, OBJECT).type(Opcodes.CHECKCAST, "java/lang/Character").call(Opcodes.INVOKEVIRTUAL, "java/lang/Character", "charValue", "()C");
        code.number(label).jump(Opcodes.IF_ICMPNE, next).same(taken);
    }

    /** The class and the name of the enum constant that a label of Java 21 describes (EnumDesc over ClassDesc), or null. */
    private static String[] enumConstant(ConstantDynamic label) {
        boolean described = label.getBootstrapMethod().getName().equals("invoke") && label.getBootstrapMethodArgumentCount() == 3
                && label.getDescriptor().equals("Ljava/lang/Enum$EnumDesc;") && label.getBootstrapMethodArgument(1) instanceof ConstantDynamic
                && label.getBootstrapMethodArgument(2) instanceof String;
        if (!described) {
            return null;
        }
        ConstantDynamic type = (ConstantDynamic) label.getBootstrapMethodArgument(1);
        if (type.getBootstrapMethodArgumentCount() != 2 || !(type.getBootstrapMethodArgument(1) instanceof String)) {
            return null;
        }
        return new String[] {((String) type.getBootstrapMethodArgument(1)).replace('.', '/'), (String) label.getBootstrapMethodArgument(2)};
    }
}
