package varexj.prepare;

import java.util.Arrays;
import java.util.List;
import org.objectweb.asm.Opcodes;
import org.objectweb.asm.Type;

/** How a value of one type becomes one of another, as the metafactory of lambdas does it (LambdaMetafactory, "adapting"). */
final class Convert {
    private static final List<String> WRAPPERS = Arrays.asList("java/lang/Boolean", "java/lang/Character", "java/lang/Byte", "java/lang/Short",
            "java/lang/Integer", "java/lang/Float", "java/lang/Long", "java/lang/Double");
    private static final String NUMBER = "java/lang/Number";

    private Convert() {
    }

    /** The wrapper of a primitive type, whose sorts are numbered as the list is. */
    static String wrapper(Type type) {
        return WRAPPERS.get(type.getSort() - Type.BOOLEAN);
    }

    private static boolean isPrimitive(Type type) {
        return type.getSort() >= Type.BOOLEAN && type.getSort() <= Type.DOUBLE;
    }

    /** The primitive type that a class wraps, or null. */
    private static Type wrapped(Type type) {
        int at = type.getSort() == Type.OBJECT ? WRAPPERS.indexOf(type.getInternalName()) : -1;
        Type[] primitives = {Type.BOOLEAN_TYPE, Type.CHAR_TYPE, Type.BYTE_TYPE, Type.SHORT_TYPE, Type.INT_TYPE, Type.FLOAT_TYPE, Type.LONG_TYPE,
            Type.DOUBLE_TYPE};
        return at < 0 ? null : primitives[at];
    }

    /** From a type to another one; what comes was promised to be of the functional type, which is nearer. */
    static void argument(Emit code, Type from, Type to, Type functional) {
        if (isPrimitive(from)) {
            if (isPrimitive(to)) {
                widen(code, from, to);
            } else {
                Type inner = wrapped(to);
                widen(code, from, inner == null ? from : inner);
                box(code, inner == null ? from : inner);
            }
            return;
        }
        Type near = isPrimitive(functional) ? from : functional;
        cast(code, from, near);
        if (isPrimitive(to)) {
            unboxTo(code, near, to);
        } else {
            cast(code, near, to);
        }
    }

    private static void unboxTo(Emit code, Type near, Type to) {
        Type inner = wrapped(near);
        if (inner != null && (inner == Type.BOOLEAN_TYPE || inner == Type.CHAR_TYPE)) {
            unbox(code, near.getInternalName(), inner);
            widen(code, inner, to);
        } else if (inner != null) {
            unbox(code, near.getInternalName(), to);
        } else {
            String middle = to == Type.BOOLEAN_TYPE || to == Type.CHAR_TYPE ? wrapper(to) : NUMBER;
            cast(code, near, Type.getObjectType(middle));
            unbox(code, middle, to);
        }
    }

    static void box(Emit code, Type type) {
        String wrapper = wrapper(type);
        code.call(Opcodes.INVOKESTATIC, wrapper, "valueOf", Type.getMethodDescriptor(Type.getObjectType(wrapper), type));
    }

    private static void unbox(Emit code, String wrapper, Type to) {
        code.call(Opcodes.INVOKEVIRTUAL, wrapper, to.getClassName() + "Value", Type.getMethodDescriptor(to));
    }

    private static void cast(Emit code, Type from, Type to) {
        if (!from.equals(to) && !to.getInternalName().equals(World.OBJECT)) {
            code.type(Opcodes.CHECKCAST, to.getInternalName());
        }
    }

    private static void widen(Emit code, Type from, Type to) {
        if (from.getSort() <= Type.INT && to.getSort() > Type.INT) {
            code.op(to == Type.LONG_TYPE ? Opcodes.I2L : to == Type.FLOAT_TYPE ? Opcodes.I2F : Opcodes.I2D);
        } else if (from == Type.LONG_TYPE && to.getSort() != Type.LONG) {
            code.op(to == Type.FLOAT_TYPE ? Opcodes.L2F : Opcodes.L2D);
        } else if (from == Type.FLOAT_TYPE && to == Type.DOUBLE_TYPE) {
            code.op(Opcodes.F2D);
        }
    }
}
