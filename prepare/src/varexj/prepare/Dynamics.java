package varexj.prepare;

import java.util.ArrayList;
import java.util.Arrays;
import java.util.Collections;
import java.util.List;
import org.objectweb.asm.ConstantDynamic;
import org.objectweb.asm.Opcodes;
import org.objectweb.asm.Type;
import org.objectweb.asm.tree.AbstractInsnNode;
import org.objectweb.asm.tree.ClassNode;
import org.objectweb.asm.tree.InvokeDynamicInsnNode;
import org.objectweb.asm.tree.LabelNode;
import org.objectweb.asm.tree.LdcInsnNode;
import org.objectweb.asm.tree.LineNumberNode;
import org.objectweb.asm.tree.MethodInsnNode;
import org.objectweb.asm.tree.MethodNode;

/** Dynamic calls: each one whose bootstrap method is known becomes a call of a static method that is made for it. */
final class Dynamics {
    private static final String RECIPE_ARGUMENT = "\1";

    private final World world;
    private final Library library;
    private final ClassNode node;
    private int count;

    private Dynamics(World world, Library library, ClassNode node) {
        this.world = world;
        this.library = library;
        this.node = node;
    }

    static void expand(World world, Library library, ClassNode node) {
        new Dynamics(world, library, node).expand();
    }

    private void expand() {
        node.methods.removeIf(method -> method.name.equals("$deserializeLambda$") && (method.access & Opcodes.ACC_SYNTHETIC) != 0);
        for (MethodNode method : new ArrayList<>(node.methods)) {
            for (AbstractInsnNode at : method.instructions.toArray()) {
                if (at instanceof InvokeDynamicInsnNode) {
                    int from = node.methods.size();
                    MethodInsnNode call = call((InvokeDynamicInsnNode) at);
                    if (call != null) {
                        placed(Facts.line(at), node.methods.subList(from, node.methods.size()));
                        placed(Facts.line(at), call.owner.equals(node.name) ? Collections.emptyList() : world.get(call.owner).methods);
                        method.instructions.set(at, call);
                    }
                } else if (at instanceof LdcInsnNode && ((LdcInsnNode) at).cst instanceof ConstantDynamic) {
                    ConstantDynamic constant = (ConstantDynamic) ((LdcInsnNode) at).cst;
                    method.instructions.set(at, unknown("()" + constant.getDescriptor()));
                }
            }
        }
    }

    /** Gives made methods the line of the place for which they were made. */
    private static void placed(String line, List<MethodNode> methods) {
        for (MethodNode method : methods) {
            if (!line.equals("-") && method.instructions.size() > 0) {
                LabelNode start = new LabelNode();
                method.instructions.insert(new LineNumberNode(Integer.parseInt(line), start));
                method.instructions.insert(start);
            }
        }
    }

    private MethodInsnNode call(InvokeDynamicInsnNode site) {
        String bootstrap = site.bsm.getOwner() + "." + site.bsm.getName();
        if (Lambdas.isOne(site)) {
            String type = Type.getReturnType(site.desc).getInternalName();
            if (!world.has(type) && !library.has(type)) {
                return null;
            }
            return new MethodInsnNode(Opcodes.INVOKESTATIC, Lambdas.make(world, node, site, ++count), "make", site.desc, false);
        }
        switch (bootstrap) {
            case "java/lang/invoke/StringConcatFactory.makeConcat":
                return concat(site, repeated(Type.getArgumentTypes(site.desc).length), new Object[0]);
            case "java/lang/invoke/StringConcatFactory.makeConcatWithConstants":
                return concat(site, (String) site.bsmArgs[0], Arrays.copyOfRange(site.bsmArgs, 1, site.bsmArgs.length));
            case "java/lang/runtime/ObjectMethods.bootstrap":
                return made(site.desc, Records.make(world, node, site, ++count));
            case "java/lang/runtime/SwitchBootstraps.typeSwitch":
            case "java/lang/runtime/SwitchBootstraps.enumSwitch":
                String name = Switches.make(node, site, count + 1);
                count += name == null ? 0 : 1;
                return name == null ? unknown(site.desc) : made(site.desc, name);
            default:
                return hasDynamicConstant(site.bsmArgs) ? unknown(site.desc) : null;
        }
    }

    private static boolean hasDynamicConstant(Object[] arguments) {
        for (Object argument : arguments) {
            if (argument instanceof ConstantDynamic) {
                return true;
            }
        }
        return false;
    }

    private MethodInsnNode made(String descriptor, String name) {
        return new MethodInsnNode(Opcodes.INVOKESTATIC, node.name, name, descriptor, World.isInterface(node));
    }

    /** What no class file of Java 8 can say: a native method that ends the run. An interface has none, so that a class is made for it. */
    private MethodInsnNode unknown(String descriptor) {
        ClassNode place = node;
        if (World.isInterface(node)) {
            place = Emit.newClass(node.name + "$$D" + ++count, Opcodes.ACC_FINAL, World.OBJECT);
            world.add(place, World.Origin.MADE);
        }
        String name = "varexj$dynamic$" + ++count;
        place.methods.add(new MethodNode(Opcodes.ACC_STATIC | Opcodes.ACC_NATIVE | Emit.MADE, name, descriptor, null, null));
        return new MethodInsnNode(Opcodes.INVOKESTATIC, place.name, name, descriptor, false);
    }

    private static String repeated(int times) {
        StringBuilder text = new StringBuilder();
        for (int at = 0; at < times; at++) {
            text.append(RECIPE_ARGUMENT);
        }
        return text.toString();
    }

    static int access(ClassNode node) {
        return Opcodes.ACC_STATIC | (World.isInterface(node) ? Opcodes.ACC_PUBLIC : Opcodes.ACC_PRIVATE);
    }

    /** Joined texts (StringConcatFactory): in a recipe the unit 1 stands for the next argument, 2 for the next constant, and any other for itself. */
    private MethodInsnNode concat(InvokeDynamicInsnNode site, String recipe, Object[] constants) {
        Type[] types = Type.getArgumentTypes(site.desc);
        String name = "varexj$text$" + ++count;
        Emit code = Emit.in(node, access(node), name, site.desc, 4);
        code.type(Opcodes.NEW, Emit.BUILDER).op(Opcodes.DUP).call(Opcodes.INVOKESPECIAL, Emit.BUILDER, "<init>", "()V");
        int local = 0;
        int argument = 0;
        int constant = 0;
        StringBuilder literal = new StringBuilder();
        for (char unit : recipe.toCharArray()) {
            if (unit == '\2') {
                literal.append(constants[constant++]);
            } else if (unit == '\1') {
                flush(code, literal);
                code.load(local, types[argument]);
                append(world, code, types[argument]);
                local += types[argument++].getSize();
            } else {
                literal.append(unit);
            }
        }
        flush(code, literal);
        code.call(Opcodes.INVOKEVIRTUAL, Emit.BUILDER, "toString", "()Ljava/lang/String;").op(Opcodes.ARETURN);
        return made(site.desc, name);
    }

    private static void flush(Emit code, StringBuilder literal) {
        if (literal.length() > 0) {
            code.text(literal.toString()).call(Opcodes.INVOKEVIRTUAL, Emit.BUILDER, "append", "(Ljava/lang/String;)Ljava/lang/StringBuilder;");
            literal.setLength(0);
        }
    }

    /** Appends the value on top of the stack to the builder below it. */
    static void append(World world, Emit code, Type type) {
        String as;
        switch (type.getSort()) {
            case Type.BYTE:
            case Type.SHORT:
                as = "I";
                break;
            case Type.OBJECT:
                as = type.getInternalName().equals(Emit.STRING) ? type.getDescriptor() : "Ljava/lang/Object;";
                break;
            case Type.ARRAY:
                as = "Ljava/lang/Object;";
                break;
            default:
                as = type.getDescriptor();
        }
        code.call(Opcodes.INVOKEVIRTUAL, Emit.BUILDER, "append", "(" + as + ")Ljava/lang/StringBuilder;");
        if (type.getSort() == Type.OBJECT && hasText(world, type.getInternalName())) {
            world.keep(code.method.instructions.getLast());
        }
    }

    /** Whether each object of this static type has a text without help from a companion. */
    private static boolean hasText(World world, String name) {
        ClassNode node = world.get(name);
        if (node == null || World.isInterface(node) || name.equals(World.OBJECT)) {
            return false;
        }
        World.Member member = world.resolve(name, "toString", "()Ljava/lang/String;");
        return !world.isCore(name) || !world.isRefused(member.method);
    }
}
