package varexj.prepare;

import org.objectweb.asm.Opcodes;
import org.objectweb.asm.tree.ClassNode;
import org.objectweb.asm.tree.FieldNode;
import org.objectweb.asm.tree.MethodNode;

/** The form of a class file: its version, and its attributes, of which Code, ConstantValue, LineNumberTable, SourceFile and StackMapTable stay. */
final class Shape {
    private Shape() {
    }

    static void reduce(ClassNode node) {
        int major = node.version & 0xffff;
        node.version = Math.max(Opcodes.V1_5, Math.min(major, Opcodes.V1_8));
        // Access isn't checked at run time; tables and companions name each class.
        node.access = node.access & ~(Opcodes.ACC_RECORD | Opcodes.ACC_DEPRECATED) | Opcodes.ACC_PUBLIC;
        node.signature = null;
        node.sourceDebug = null;
        node.module = null;
        node.outerClass = null;
        node.outerMethod = null;
        node.outerMethodDesc = null;
        node.nestHostClass = null;
        node.nestMembers = null;
        node.permittedSubclasses = null;
        node.recordComponents = null;
        node.visibleAnnotations = null;
        node.invisibleAnnotations = null;
        node.visibleTypeAnnotations = null;
        node.invisibleTypeAnnotations = null;
        node.attrs = null;
        node.innerClasses.clear();
        node.fields.forEach(Shape::reduce);
        node.methods.forEach(Shape::reduce);
    }

    private static void reduce(FieldNode field) {
        field.access &= ~Opcodes.ACC_DEPRECATED;
        field.signature = null;
        field.visibleAnnotations = null;
        field.invisibleAnnotations = null;
        field.visibleTypeAnnotations = null;
        field.invisibleTypeAnnotations = null;
        field.attrs = null;
    }

    private static void reduce(MethodNode method) {
        method.access &= ~Opcodes.ACC_DEPRECATED;
        method.signature = null;
        method.exceptions.clear();
        method.parameters = null;
        method.annotationDefault = null;
        method.visibleAnnotations = null;
        method.invisibleAnnotations = null;
        method.visibleTypeAnnotations = null;
        method.invisibleTypeAnnotations = null;
        method.visibleParameterAnnotations = null;
        method.invisibleParameterAnnotations = null;
        method.visibleLocalVariableAnnotations = null;
        method.invisibleLocalVariableAnnotations = null;
        method.localVariables = null;
        method.attrs = null;
        method.instructions.forEach(at -> {
            at.visibleTypeAnnotations = null;
            at.invisibleTypeAnnotations = null;
        });
        method.tryCatchBlocks.forEach(row -> {
            row.visibleTypeAnnotations = null;
            row.invisibleTypeAnnotations = null;
        });
    }
}
