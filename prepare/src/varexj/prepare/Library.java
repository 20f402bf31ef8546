package varexj.prepare;

import java.io.IOException;
import java.nio.file.Files;
import java.nio.file.Path;
import java.util.HashMap;
import java.util.HashSet;
import java.util.Map;
import java.util.Set;
import org.objectweb.asm.ClassWriter;
import org.objectweb.asm.Opcodes;
import org.objectweb.asm.Type;
import org.objectweb.asm.commons.ClassRemapper;
import org.objectweb.asm.commons.Remapper;
import org.objectweb.asm.tree.AbstractInsnNode;
import org.objectweb.asm.tree.ClassNode;
import org.objectweb.asm.tree.FieldNode;
import org.objectweb.asm.tree.FrameNode;
import org.objectweb.asm.tree.MethodNode;

/** The class files of the class library and the companions. */
final class Library {
    private final Path folder;
    private final Map<String, ClassNode> read = new HashMap<>();

    Library(Path folder) {
        this.folder = folder;
    }

    boolean has(String name) {
        return get(name) != null;
    }

    /** The class of this name as the library has it, or null. It is read once. */
    ClassNode get(String name) {
        if (!read.containsKey(name)) {
            Path file = folder.resolve(name + ".class");
            try {
                read.put(name, Files.isRegularFile(file) ? Input.node(Files.readAllBytes(file), file.toString()) : null);
            } catch (IOException e) {
                throw new Refusal(Refusal.UNREADABLE, "can't be read: " + file);
            }
        }
        return read.get(name);
    }

    boolean hasMethod(String owner, String name, String descriptor) {
        ClassNode node = get(owner);
        MethodNode method = node == null ? null : World.declared(node, name, descriptor);
        return method != null && (method.access & Opcodes.ACC_STATIC) != 0 && (method.access & Opcodes.ACC_PUBLIC) != 0;
    }

    boolean hasField(String owner, String name, String descriptor) {
        ClassNode node = get(owner);
        if (node != null) {
            for (FieldNode field : node.fields) {
                if (field.name.equals(name) && field.desc.equals(descriptor)) {
                    return (field.access & Opcodes.ACC_STATIC) != 0;
                }
            }
        }
        return false;
    }

    /** The classes that a class names, as a superclass, in an instruction or in a descriptor. */
    static Set<String> named(ClassNode node) {
        Set<String> names = new HashSet<>();
        withoutFrames(node);
        ClassWriter writer = new ClassWriter(0);
        Remapper remapper = new Remapper() {
            @Override
            public String map(String name) {
                names.add(name);
                return name;
            }
        };
        node.accept(new ClassRemapper(writer, remapper));
        for (String name : new HashSet<>(names)) {
            if (name.startsWith("[")) {
                names.remove(name);
                Type element = Type.getType(name).getElementType();
                if (element.getSort() == Type.OBJECT) {
                    names.add(element.getInternalName());
                }
            }
        }
        return names;
    }

    /** Frames of the stack map came with version 50; a class file before it has none, nor do the methods that are made in it. */
    private static void withoutFrames(ClassNode node) {
        if ((node.version & 0xffff) < Opcodes.V1_6) {
            for (MethodNode method : node.methods) {
                for (AbstractInsnNode at : method.instructions.toArray()) {
                    if (at instanceof FrameNode) {
                        method.instructions.remove(at);
                    }
                }
            }
        }
    }

    static byte[] bytes(ClassNode node) {
        withoutFrames(node);
        ClassWriter writer = new ClassWriter(0);
        node.accept(writer);
        return writer.toByteArray();
    }
}
