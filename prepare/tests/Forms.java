import java.nio.file.Files;
import java.nio.file.Path;
import java.nio.file.Paths;
import org.objectweb.asm.ClassWriter;
import org.objectweb.asm.ConstantDynamic;
import org.objectweb.asm.Handle;
import org.objectweb.asm.Label;
import org.objectweb.asm.MethodVisitor;
import org.objectweb.asm.Opcodes;

/**
 * Writes class files that javac doesn't make: Forms FOLDER writes FOLDER/old (subroutines), FOLDER/constant (a dynamic constant), FOLDER/later (Java 21),
 * FOLDER/own (with a class of the machine's name) and FOLDER/crowd (more classes than the machine takes).
 */
public final class Forms {
    private static final String PRINT = "(Ljava/lang/String;)V";

    private static MethodVisitor begin(ClassWriter writer, int version) {
        writer.visit(version, Opcodes.ACC_PUBLIC | Opcodes.ACC_SUPER, "Main", null, "java/lang/Object", null);
        MethodVisitor main = writer.visitMethod(Opcodes.ACC_PUBLIC | Opcodes.ACC_STATIC, "main", "([Ljava/lang/String;)V", null, null);
        main.visitCode();
        return main;
    }

    private static void end(ClassWriter writer, MethodVisitor main, Path folder, int later) throws Exception {
        main.visitMaxs(6, 4);
        main.visitEnd();
        writer.visitEnd();
        byte[] data = writer.toByteArray();
        data[7] += later;
        Files.createDirectories(folder);
        Files.write(folder.resolve("Main.class"), data);
    }

    private static void print(MethodVisitor main, String text) {
        main.visitFieldInsn(Opcodes.GETSTATIC, "java/lang/System", "out", "Ljava/io/PrintStream;");
        main.visitLdcInsn(text);
        main.visitMethodInsn(Opcodes.INVOKEVIRTUAL, "java/io/PrintStream", "println", PRINT, false);
    }

    /** A subroutine that is called twice, as `finally` was compiled until Java 5. */
    private static void old(Path folder) throws Exception {
        ClassWriter writer = new ClassWriter(0);
        MethodVisitor main = begin(writer, Opcodes.V1_1);
        Label routine = new Label();
        Label behind = new Label();
        main.visitJumpInsn(Opcodes.JSR, routine);
        print(main, "between");
        main.visitJumpInsn(Opcodes.JSR, routine);
        main.visitJumpInsn(Opcodes.GOTO, behind);
        main.visitLabel(routine);
        main.visitVarInsn(Opcodes.ASTORE, 1);
        print(main, "finally");
        main.visitVarInsn(Opcodes.RET, 1);
        main.visitLabel(behind);
        main.visitInsn(Opcodes.RETURN);
        end(writer, main, folder, 0);
    }

    private static void constant(Path folder) throws Exception {
        ClassWriter writer = new ClassWriter(0);
        MethodVisitor main = begin(writer, Opcodes.V11);
        print(main, "before");
        Handle bootstrap = new Handle(Opcodes.H_INVOKESTATIC, "java/lang/invoke/ConstantBootstraps", "nullConstant",
                "(Ljava/lang/invoke/MethodHandles$Lookup;Ljava/lang/String;Ljava/lang/Class;)Ljava/lang/Object;", false);
        main.visitLdcInsn(new ConstantDynamic("none", "Ljava/lang/String;", bootstrap));
        main.visitInsn(Opcodes.POP);
        print(main, "behind");
        main.visitInsn(Opcodes.RETURN);
        end(writer, main, folder, 0);
    }

    /** The version of Java 21, which the packaged ASM doesn't read by itself. */
    private static void later(Path folder) throws Exception {
        ClassWriter writer = new ClassWriter(0);
        MethodVisitor main = begin(writer, Opcodes.V20);
        print(main, "later");
        main.visitInsn(Opcodes.RETURN);
        end(writer, main, folder, 1);
    }

    private static void empty(Path folder, String name, int access) throws Exception {
        ClassWriter writer = new ClassWriter(0);
        writer.visit(Opcodes.V1_8, access, name, null, "java/lang/Object", null);
        writer.visitEnd();
        Path file = folder.resolve(name + ".class");
        Files.createDirectories(file.getParent());
        Files.write(file, writer.toByteArray());
    }

    public static void main(String[] args) throws Exception {
        later(Paths.get(args[0], "own"));
        empty(Paths.get(args[0], "own"), "java/lang/Runnable", Opcodes.ACC_PUBLIC | Opcodes.ACC_INTERFACE | Opcodes.ACC_ABSTRACT);
        later(Paths.get(args[0], "crowd"));
        for (int at = 0; at < 1024; at++) {
            empty(Paths.get(args[0], "crowd"), "C" + at, Opcodes.ACC_PUBLIC | Opcodes.ACC_SUPER);
        }
        old(Paths.get(args[0], "old"));
        constant(Paths.get(args[0], "constant"));
        later(Paths.get(args[0], "later"));
    }
}
