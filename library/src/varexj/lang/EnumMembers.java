package varexj.lang;

/** Members of Enum that the machine doesn't have. */
public final class EnumMembers {
    private EnumMembers() {
    }

    /** {@code constant.hashCode()}: the machine's own choice, here the hash of the name. */
    public static int hashCode(Enum<?> constant) {
        return constant.name().hashCode();
    }

    /** {@code Enum.valueOf(type, name)}. */
    public static Enum<?> valueOf(Class<?> type, String name) {
        Object[] constants = ClassMembers.getEnumConstants(type);
        if (name == null) {
            throw new NullPointerException("Name is null");
        }
        if (constants == null) {
            throw new IllegalArgumentException(ClassMembers.getName(type).concat(" is not an enum class"));
        }
        for (int at = 0; at < constants.length; at++) {
            Enum<?> constant = (Enum<?>) constants[at];
            if (constant.name().equals(name)) {
                return constant;
            }
        }
        throw new IllegalArgumentException("No enum constant " + ClassMembers.getCanonicalName(type) + "." + name);
    }

    /** {@code constant.getDeclaringClass()}. */
    public static Class<?> getDeclaringClass(Enum<?> constant) {
        Class<?> type = ObjectMembers.getClass(constant);
        Class<?> above = ClassTable.getSuperclass(type);
        return above == Enum.class ? type : above;
    }
}
