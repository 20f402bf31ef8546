package varexj.prepare;

import java.util.ArrayList;
import java.util.Arrays;
import java.util.Collections;
import java.util.LinkedHashMap;
import java.util.List;
import java.util.Map;
import org.objectweb.asm.Label;
import org.objectweb.asm.Opcodes;
import org.objectweb.asm.Type;
import org.objectweb.asm.tree.ClassNode;
import org.objectweb.asm.tree.FieldInsnNode;
import org.objectweb.asm.tree.FieldNode;
import org.objectweb.asm.tree.FrameNode;
import org.objectweb.asm.tree.InsnList;
import org.objectweb.asm.tree.InsnNode;
import org.objectweb.asm.tree.JumpInsnNode;
import org.objectweb.asm.tree.LabelNode;
import org.objectweb.asm.tree.LdcInsnNode;
import org.objectweb.asm.tree.MethodInsnNode;
import org.objectweb.asm.tree.MethodNode;
import org.objectweb.asm.tree.VarInsnNode;

/** Binds options to where the program takes them from. */
final class Sources {
    static final String SETTINGS = "varexj/lang/Settings";
    private static final Type TEXT = Type.getObjectType(Emit.STRING);
    private static final String LOOK_UP = "(Ljava/lang/String;)Ljava/lang/String;";
    /** Properties that each Java machine has, whose texts are not known here; and beginnings of such. */
    private static final List<String> MACHINE_KEYS = Arrays.asList("file.encoding", "file.encoding.pkg", "line.separator", "file.separator", "path.separator",
            "user.country", "user.dir", "user.home", "user.language", "user.name", "user.script", "user.timezone", "user.variant", "native.encoding",
            "stdout.encoding", "stderr.encoding", "ftp.nonProxyHosts", "http.nonProxyHosts", "socksNonProxyHosts");
    private static final List<String> MACHINE_BEGINNINGS = Arrays.asList("java.", "jdk.", "os.", "sun.");
    private static final List<String> ENVIRONMENT = Arrays.asList("PATH", "HOME", "USER", "LOGNAME", "SHELL", "PWD", "OLDPWD", "LANG", "TERM", "TMPDIR", "HOSTNAME",
            "SHLVL", "_", "MAIL", "EDITOR", "DISPLAY", "JAVA_HOME", "CLASSPATH", "TZ", "LC_ALL");
    private static final Map<String, String> KNOWN = known();

    private final World world;
    private final Words words;

    private Sources(World world, Words words) {
        this.world = world;
        this.words = words;
    }

    private static Map<String, String> known() {
        Map<String, String> texts = new LinkedHashMap<>();
        texts.put("line.separator", "\n");
        return texts;
    }

    /** Binds each option; gives the class whose main runs. */
    static String bind(World world, Words words, String main) {
        Sources sources = new Sources(world, words);
        for (Source source : words.options) {
            if (source.kind.equals("field")) {
                sources.field(source);
            } else if (source.kind.equals("call")) {
                sources.call(source);
            }
        }
        sources.options();
        return words.arguments.isEmpty() ? main : sources.made(main);
    }

    private void options() {
        ClassNode node = Emit.newClass(Source.OPTIONS, Opcodes.ACC_PUBLIC | Opcodes.ACC_FINAL, World.OBJECT);
        for (Source source : words.options) {
            if (!source.kind.equals("field")) {
                node.visitField(Opcodes.ACC_PUBLIC | Opcodes.ACC_STATIC, source.option, "Z", null, null);
            }
        }
        if (!node.fields.isEmpty()) {
            world.add(node, World.Origin.MADE);
        }
    }

    private static Refusal refused(Source source, String why) {
        return new Refusal(Refusal.USAGE, "option " + source.option + ": " + why);
    }

    private void field(Source source) {
        ClassNode node = world.get(source.owner());
        if (node == null) {
            throw refused(source, "no class " + source.owner());
        }
        for (FieldNode field : node.fields) {
            if (field.name.equals(source.member()) && field.desc.equals("Z") && (field.access & Opcodes.ACC_STATIC) != 0) {
                if (field.value != null) {
                    throw refused(source, source.member() + " is a constant, which javac has folded: leave out final, or give it by a method");
                }
                field.access &= World.isInterface(node) ? ~0 : ~Opcodes.ACC_FINAL;
                return;
            }
        }
        throw refused(source, "no static boolean " + source.member() + " in " + source.owner());
    }

    /** A method that gives a boolean, of nothing, or of one text: it begins with the option. */
    private void call(Source source) {
        ClassNode node = world.get(source.owner());
        MethodNode method = node == null ? null : World.declared(node, source.member(), source.text == null ? "()Z" : "(Ljava/lang/String;)Z");
        if (method == null || method.instructions.size() == 0) {
            throw refused(source, "no method " + source.what + " with code that gives a boolean, " + (source.text == null ? "of nothing" : "of one text"));
        }
        InsnList code = new InsnList();
        FieldInsnNode option = new FieldInsnNode(Opcodes.GETSTATIC, Source.OPTIONS, source.option, "Z");
        if (source.text == null) {
            method.instructions.clear();
            method.tryCatchBlocks.clear();
            code.add(option);
            code.add(new InsnNode(Opcodes.IRETURN));
        } else {
            LabelNode other = new LabelNode();
            code.add(new LdcInsnNode(source.text));
            code.add(new VarInsnNode(Opcodes.ALOAD, (method.access & Opcodes.ACC_STATIC) != 0 ? 0 : 1));
            code.add(new MethodInsnNode(Opcodes.INVOKEVIRTUAL, World.OBJECT, "equals", "(Ljava/lang/Object;)Z", false));
            code.add(new JumpInsnNode(Opcodes.IFEQ, other));
            code.add(option);
            code.add(new InsnNode(Opcodes.IRETURN));
            code.add(other);
            code.add(new FrameNode(Opcodes.F_SAME, 0, null, 0, null));
            code.add(new InsnNode(Opcodes.NOP));
        }
        method.maxStack = Math.max(method.maxStack, 2);
        method.instructions.insert(code);
    }

    /** The class whose main makes the array of arguments and calls the program's main. */
    private String made(String main) {
        ClassNode node = Emit.newClass(main + "$Arguments", Opcodes.ACC_PUBLIC | Opcodes.ACC_FINAL, World.OBJECT);
        Emit code = Emit.in(node, Opcodes.ACC_PUBLIC | Opcodes.ACC_STATIC, "main", "([Ljava/lang/String;)V", 4).locals(3);
        Type array = Type.getType("[Ljava/lang/String;");
        int fixed = 0;
        for (Object argument : words.arguments) {
            fixed += argument instanceof Source ? 0 : 1;
        }
        code.number(fixed);
        for (Object argument : words.arguments) {
            if (argument instanceof Source) {
                // A boolean is the number 1 where it is true (JVMS 2.3.4).
                code.field(Opcodes.GETSTATIC, Source.OPTIONS, ((Source) argument).option, "Z").op(Opcodes.IADD);
            }
        }
        code.type(Opcodes.ANEWARRAY, Emit.STRING);
        code.method.visitVarInsn(Opcodes.ASTORE, 1);
        code.number(0);
        code.method.visitVarInsn(Opcodes.ISTORE, 2);
        boolean first = true;
        for (Object argument : words.arguments) {
            Label next = new Label();
            boolean asked = argument instanceof Source;
            if (asked) {
                code.field(Opcodes.GETSTATIC, Source.OPTIONS, ((Source) argument).option, "Z").jump(Opcodes.IFEQ, next);
            }
            code.load(1, array).load(2, Type.INT_TYPE).text(asked ? ((Source) argument).what : (String) argument).op(Opcodes.AASTORE);
            code.method.visitIincInsn(2, 1);
            if (asked) {
                code.method.visitLabel(next);
                code.method.visitFrame(first ? Opcodes.F_APPEND : Opcodes.F_SAME, first ? 2 : 0,
                        first ? new Object[] {"[Ljava/lang/String;", Opcodes.INTEGER} : null, 0, null);
                first = false;
            }
        }
        code.load(1, array).call(Opcodes.INVOKESTATIC, main, "main", "([Ljava/lang/String;)V", World.isInterface(world.get(main))).op(Opcodes.RETURN);
        world.add(node, World.Origin.MADE);
        return node.name;
    }

    /** The class that answers for properties and the environment, in place of the library's, whose methods end the run. */
    static ClassNode settings(Words words) {
        ClassNode node = Emit.newClass(SETTINGS, Opcodes.ACC_PUBLIC | Opcodes.ACC_FINAL, World.OBJECT);
        int access = Opcodes.ACC_PUBLIC | Opcodes.ACC_STATIC;
        Map<String, String> fixed = new LinkedHashMap<>(KNOWN);
        fixed.putAll(words.settings);
        look(Emit.in(node, access, "property", LOOK_UP, 2), words, "property", fixed, "unknownProperty");
        look(Emit.in(node, access, "environment", LOOK_UP, 2), words, "env", Collections.emptyMap(), "unknownEnvironment");
        for (String name : Arrays.asList("unknownProperty", "unknownEnvironment")) {
            node.methods.add(new MethodNode(access | Opcodes.ACC_NATIVE | Emit.MADE, name, LOOK_UP, null, null));
        }
        return node;
    }

    private static void look(Emit code, Words words, String kind, Map<String, String> fixed, String unknown) {
        Map<String, List<Source>> keys = new LinkedHashMap<>();
        for (Source source : words.options) {
            if (source.kind.equals(kind)) {
                keys.computeIfAbsent(source.what, key -> new ArrayList<>()).add(source);
            }
        }
        for (String key : fixed.keySet()) {
            keys.computeIfAbsent(key, each -> new ArrayList<>());
        }
        for (Map.Entry<String, List<Source>> each : keys.entrySet()) {
            Label next = new Label();
            equal(code, each.getKey()).jump(Opcodes.IFEQ, next);
            for (Source source : each.getValue()) {
                Label off = new Label();
                code.field(Opcodes.GETSTATIC, Source.OPTIONS, source.option, "Z").jump(Opcodes.IFEQ, off);
                code.text(source.text == null ? "true" : source.text).op(Opcodes.ARETURN).same(off);
            }
            String otherwise = fixed.get(each.getKey());
            (otherwise == null ? code.op(Opcodes.ACONST_NULL) : code.text(otherwise)).op(Opcodes.ARETURN).same(next);
        }
        Label theirs = new Label();
        for (String key : kind.equals("env") ? ENVIRONMENT : MACHINE_KEYS) {
            equal(code, key).jump(Opcodes.IFNE, theirs);
        }
        for (String beginning : kind.equals("env") ? Collections.<String>emptyList() : MACHINE_BEGINNINGS) {
            code.load(0, TEXT).text(beginning).call(Opcodes.INVOKEVIRTUAL, Emit.STRING, "startsWith", "(Ljava/lang/String;)Z").jump(Opcodes.IFNE, theirs);
        }
        code.op(Opcodes.ACONST_NULL).op(Opcodes.ARETURN).same(theirs);
        code.load(0, TEXT).call(Opcodes.INVOKESTATIC, SETTINGS, unknown, LOOK_UP).op(Opcodes.ARETURN);
    }

    private static Emit equal(Emit code, String key) {
        return code.load(0, TEXT).text(key).call(Opcodes.INVOKEVIRTUAL, Emit.STRING, "equals", "(Ljava/lang/Object;)Z");
    }
}
