package varexj.prepare;

import java.util.ArrayList;
import java.util.Collections;
import java.util.List;
import java.util.Map;
import java.util.TreeMap;
import java.util.function.UnaryOperator;
import org.objectweb.asm.Label;
import org.objectweb.asm.Opcodes;
import org.objectweb.asm.Type;
import org.objectweb.asm.tree.AbstractInsnNode;
import org.objectweb.asm.tree.ClassNode;
import org.objectweb.asm.tree.LdcInsnNode;
import org.objectweb.asm.tree.MethodNode;

/** The made class that knows the class objects of the folder, in place of the library's, whose methods end the run. */
final class Tables {
    static final String NAME = "varexj/lang/ClassTable";
    private static final String CLASS = "Ljava/lang/Class;";
    private static final Type TYPE = Type.getObjectType("java/lang/Class");

    private final World world;
    private final ClassNode node = Emit.newClass(NAME, Opcodes.ACC_PUBLIC | Opcodes.ACC_FINAL, World.OBJECT);
    /** The names of the program's classes, as their class files told them. */
    private final Map<String, Names> names;

    private Tables(World world, Map<String, Names> names) {
        this.world = world;
        this.names = names;
    }

    /** Makes the class. What it has no answer for stays as in the library's, where it ends the run. */
    static ClassNode make(World world, ClassNode stub, Map<String, Names> names) {
        Tables tables = new Tables(world, names);
        List<String> types = tables.types();
        tables.texts("getName", types, Names::source);
        tables.texts("getSimpleName", types, tables::simple);
        tables.texts("getCanonicalName", types, tables::canonical);
        tables.constants(types);
        tables.superclasses(types);
        tables.interfaces(types);
        tables.instances(types);
        tables.classOf();
        for (MethodNode method : stub.methods) {
            if ((method.access & Opcodes.ACC_NATIVE) != 0 && World.declared(tables.node, method.name, method.desc) == null) {
                tables.node.methods.add(method);
            }
        }
        return tables.node;
    }

    private List<String> types() {
        Map<String, Boolean> found = new TreeMap<>();
        for (ClassNode each : world.all()) {
            boolean told = world.origin(each.name) == World.Origin.PROGRAM || world.isBelow(each.name, "java/lang/Throwable");
            for (MethodNode method : each.methods) {
                for (AbstractInsnNode at : method.instructions) {
                    if (at instanceof LdcInsnNode && ((LdcInsnNode) at).cst instanceof Type && ((Type) ((LdcInsnNode) at).cst).getSort() != Type.METHOD) {
                        String name = ((Type) ((LdcInsnNode) at).cst).getInternalName();
                        found.merge(name, told, Boolean::logicalOr);
                    }
                }
            }
        }
        List<String> first = new ArrayList<>();
        List<String> last = new ArrayList<>();
        for (Map.Entry<String, Boolean> each : found.entrySet()) {
            Type type = Type.getObjectType(each.getKey());
            Type element = type.getSort() == Type.ARRAY ? type.getElementType() : type;
            if (element.getSort() != Type.OBJECT || world.has(element.getInternalName())) {
                (each.getValue() ? first : last).add(each.getKey());
            }
        }
        first.addAll(last);
        return first;
    }

    private Emit begin(String name, String descriptor) {
        return Emit.in(node, Opcodes.ACC_PUBLIC | Opcodes.ACC_STATIC, name, descriptor, 2);
    }

    /** The native method to which what isn't known goes. */
    private void unknown(Emit code, String descriptor) {
        ending(code.method.name + "Unknown", descriptor);
        code.loadAll(0, Type.getArgumentTypes(descriptor));
        code.call(Opcodes.INVOKESTATIC, NAME, code.method.name + "Unknown", descriptor).returned(Type.getReturnType(descriptor));
    }

    private void ending(String name, String descriptor) {
        node.methods.add(new MethodNode(Opcodes.ACC_PUBLIC | Opcodes.ACC_STATIC | Opcodes.ACC_NATIVE | Emit.MADE, name, descriptor, null, null));
    }

    private static Label asked(Emit code, String type) {
        Label next = new Label();
        code.load(0, TYPE).literal(type).jump(Opcodes.IF_ACMPNE, next);
        return next;
    }

    private void texts(String name, List<String> types, UnaryOperator<String> text) {
        String descriptor = "(" + CLASS + ")Ljava/lang/String;";
        Emit code = begin(name, descriptor);
        nonNull(code);
        for (String type : types) {
            Label next = asked(code, type);
            String answer = text.apply(type);
            (answer == null ? code.op(Opcodes.ACONST_NULL) : code.text(answer)).op(Opcodes.ARETURN).same(next);
        }
        unknown(code, descriptor);
    }

    private static void nonNull(Emit code) {
        Label there = new Label();
        code.load(0, TYPE).jump(Opcodes.IFNONNULL, there).op(Opcodes.ACONST_NULL).op(Opcodes.ATHROW).same(there);
    }

    private String simple(String type) {
        return ofArray(type, element -> {
            Names told = names.get(element);
            return told != null ? told.simple : element.substring(Math.max(element.lastIndexOf('/'), element.lastIndexOf('$')) + 1);
        });
    }

    private String canonical(String type) {
        return ofArray(type, element -> {
            Names told = names.get(element);
            if (told == null) {
                return Names.source(element).replace('$', '.');
            }
            String outer = told.outer == null ? null : canonical(told.outer);
            return told.isMember ? outer == null ? null : outer + "." + told.simple : told.isInner ? null : Names.source(element);
        });
    }

    /** The name of an array type over that of its element. */
    private static String ofArray(String type, UnaryOperator<String> name) {
        if (!type.startsWith("[")) {
            return name.apply(type);
        }
        Type array = Type.getType(type);
        Type element = array.getElementType();
        String inner = element.getSort() == Type.OBJECT ? name.apply(element.getInternalName()) : element.getClassName();
        return inner == null ? null : inner + String.join("", Collections.nCopies(array.getDimensions(), "[]"));
    }

    /** The class of what is neither of a class of the folder nor one that a companion tells: an array of objects isn't known here. */
    private void classOf() {
        String descriptor = "(Ljava/lang/Object;)" + CLASS;
        Emit code = begin("getClass", descriptor);
        Type object = Type.getObjectType(World.OBJECT);
        Label stream = new Label();
        Label other = new Label();
        code.load(0, object).type(Opcodes.INSTANCEOF, "[Ljava/lang/Object;").jump(Opcodes.IFEQ, stream);
        unknown(code, descriptor);
        code.same(stream).load(0, object).type(Opcodes.INSTANCEOF, "java/io/PrintStream").jump(Opcodes.IFEQ, other);
        code.literal("java/io/PrintStream").op(Opcodes.ARETURN).same(other).literal(World.OBJECT).op(Opcodes.ARETURN);
    }

    private void constants(List<String> types) {
        String descriptor = "(" + CLASS + ")[Ljava/lang/Object;";
        Emit code = begin("getEnumConstants", descriptor);
        nonNull(code);
        for (String type : types) {
            ClassNode each = world.get(type);
            String values = "()[L" + type + ";";
            if (each != null && "java/lang/Enum".equals(each.superName) && World.declared(each, "values", values) != null) {
                World.declared(each, "values", values).access |= Opcodes.ACC_PUBLIC;
                Label next = asked(code, type);
                code.call(Opcodes.INVOKESTATIC, type, "values", values).op(Opcodes.ARETURN).same(next);
            }
        }
        for (String type : types) {
            ClassNode each = world.get(type);
            if (each == null || !"java/lang/Enum".equals(each.superName)) {
                Label next = asked(code, type);
                code.op(Opcodes.ACONST_NULL).op(Opcodes.ARETURN).same(next);
            }
        }
        unknown(code, descriptor);
    }

    private void superclasses(List<String> types) {
        String descriptor = "(" + CLASS + ")" + CLASS;
        Emit code = begin("getSuperclass", descriptor);
        nonNull(code);
        for (String type : types) {
            ClassNode each = world.get(type);
            Label next = asked(code, type);
            String above = each == null ? World.OBJECT : World.isInterface(each) ? null : each.superName;
            (above == null ? code.op(Opcodes.ACONST_NULL) : code.literal(above)).op(Opcodes.ARETURN).same(next);
        }
        unknown(code, descriptor);
    }

    private void interfaces(List<String> types) {
        String descriptor = "(" + CLASS + ")Z";
        Emit code = begin("isInterface", descriptor);
        nonNull(code);
        for (String type : types) {
            ClassNode each = world.get(type);
            Label next = asked(code, type);
            code.number(each != null && World.isInterface(each) ? 1 : 0).op(Opcodes.IRETURN).same(next);
        }
        unknown(code, descriptor);
    }

    private void instances(List<String> types) {
        String descriptor = "(" + CLASS + "Ljava/lang/Object;)Z";
        Emit code = begin("isInstance", descriptor);
        nonNull(code);
        for (String type : types) {
            Label next = asked(code, type);
            code.load(1, Type.getObjectType(World.OBJECT)).type(Opcodes.INSTANCEOF, type).op(Opcodes.IRETURN).same(next);
        }
        unknown(code, descriptor);
    }
}
