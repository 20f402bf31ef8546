package varexj.prepare;

import org.objectweb.asm.Label;
import org.objectweb.asm.Opcodes;
import org.objectweb.asm.Type;
import org.objectweb.asm.tree.ClassNode;

/** The made class through which texts, hashes and equality of any object go, so that arrays and class objects have them too. */
final class Texts {
    static final String NAME = "varexj/made/Texts";
    private static final String STREAM = "java/io/PrintStream";
    private static final Type OBJECT = Type.getObjectType(World.OBJECT);

    private Texts() {
    }

    static ClassNode make() {
        ClassNode node = Emit.newClass(NAME, Opcodes.ACC_PUBLIC | Opcodes.ACC_FINAL, World.OBJECT);
        int access = Opcodes.ACC_PUBLIC | Opcodes.ACC_STATIC;
        Label there = new Label();
        Emit of = Emit.in(node, access, "of", "(Ljava/lang/Object;)Ljava/lang/String;", 1);
        of.load(0, OBJECT).jump(Opcodes.IFNONNULL, there).text("null").op(Opcodes.ARETURN).same(there);
        of.load(0, OBJECT).call(Opcodes.INVOKESTATIC, Objects.MEMBERS, "toString", "(Ljava/lang/Object;)Ljava/lang/String;").op(Opcodes.ARETURN);
        through(node, Emit.BUILDER, "append", "Ljava/lang/StringBuilder;");
        through(node, STREAM, "print", "V");
        through(node, STREAM, "println", "V");
        Label some = new Label();
        Emit hash = Emit.in(node, access, "hash", "(Ljava/lang/Object;)I", 1);
        hash.load(0, OBJECT).jump(Opcodes.IFNONNULL, some).number(0).op(Opcodes.IRETURN).same(some);
        hash.load(0, OBJECT).call(Opcodes.INVOKESTATIC, Objects.MEMBERS, "hashCode", "(Ljava/lang/Object;)I").op(Opcodes.IRETURN);
        same(Emit.in(node, access, "same", "(Ljava/lang/Object;Ljava/lang/Object;)Z", 2));
        return node;
    }

    private static void same(Emit code) {
        Label no = new Label();
        Label yes = new Label();
        code.load(0, OBJECT).load(1, OBJECT).jump(Opcodes.IF_ACMPEQ, yes).load(0, OBJECT).jump(Opcodes.IFNULL, no);
        code.load(0, OBJECT).load(1, OBJECT).call(Opcodes.INVOKEVIRTUAL, World.OBJECT, "equals", "(Ljava/lang/Object;)Z").op(Opcodes.IRETURN);
        code.same(yes).number(1).op(Opcodes.IRETURN);
        code.same(no).number(0).op(Opcodes.IRETURN);
    }

    /** A method of an object over that for its text. A null receiver is found before the text is asked for. */
    private static void through(ClassNode node, String owner, String name, String result) {
        Label there = new Label();
        Type type = Type.getObjectType(owner);
        Emit code = Emit.in(node, Opcodes.ACC_PUBLIC | Opcodes.ACC_STATIC, name, "(" + type.getDescriptor() + "Ljava/lang/Object;)" + result, 2);
        code.load(0, type).jump(Opcodes.IFNONNULL, there).op(Opcodes.ACONST_NULL).op(Opcodes.ATHROW).same(there);
        code.load(0, type).load(1, OBJECT).call(Opcodes.INVOKESTATIC, NAME, "of", "(Ljava/lang/Object;)Ljava/lang/String;");
        code.call(Opcodes.INVOKEVIRTUAL, owner, name, "(Ljava/lang/String;)" + result);
        code.returned(Type.getType(result));
    }

    /** The method here that stands for a method of the core that asks an object for its text, or null. */
    static String standsFor(String owner, String name, String descriptor) {
        boolean takesObject = descriptor.startsWith("(Ljava/lang/Object;)");
        if (takesObject && owner.equals(Emit.STRING) && name.equals("valueOf")) {
            return "of";
        }
        boolean written = owner.equals(STREAM) && (name.equals("print") || name.equals("println")) || owner.equals(Emit.BUILDER) && name.equals("append");
        return takesObject && written ? name : null;
    }
}
