package varexj.prepare;

import java.util.ArrayDeque;
import java.util.ArrayList;
import java.util.Deque;
import java.util.HashMap;
import java.util.HashSet;
import java.util.LinkedHashSet;
import java.util.List;
import java.util.Map;
import java.util.Set;
import org.objectweb.asm.Opcodes;
import org.objectweb.asm.tree.AbstractInsnNode;
import org.objectweb.asm.tree.ClassNode;
import org.objectweb.asm.tree.FieldInsnNode;
import org.objectweb.asm.tree.MethodInsnNode;
import org.objectweb.asm.tree.MethodNode;
import org.objectweb.asm.tree.TypeInsnNode;

/** The methods to which main comes over calls, by class hierarchy with the classes that are made (Bacon and Sweeney 1996). */
final class Reach {
    /** A call that selects a method by the class of the object. */
    private static final class Site {
        final String owner;
        final String name;
        final String descriptor;

        Site(String owner, String name, String descriptor) {
            this.owner = owner;
            this.name = name;
            this.descriptor = descriptor;
        }
    }

    private static final String THROWABLE = "java/lang/Throwable";
    private static final String TEXT = "()Ljava/lang/String;";

    private final World world;
    private final Map<MethodNode, ClassNode> reached = new HashMap<>();
    private final Set<String> made = new LinkedHashSet<>();
    private final Set<String> begun = new HashSet<>();
    private final Map<String, Site> sites = new HashMap<>();
    private final Deque<World.Member> waiting = new ArrayDeque<>();

    private Reach(World world) {
        this.world = world;
    }

    static Reach from(World world, String main) {
        Reach reach = new Reach(world);
        reach.begin(main);
        reach.come(world.resolve(main, "main", "([Ljava/lang/String;)V"));
        while (!reach.waiting.isEmpty()) {
            World.Member next = reach.waiting.remove();
            reach.scan(next.owner, next.method);
        }
        return reach;
    }

    boolean has(MethodNode method) {
        return reached.containsKey(method);
    }

    boolean makes(String type) {
        return made.contains(type);
    }

    /** The methods that a call may select, in the objects that are made. */
    List<World.Member> targets(String owner, String name, String descriptor) {
        List<World.Member> found = new ArrayList<>();
        for (String type : made) {
            World.Member member = world.isBelow(type, owner) ? world.select(type, name, descriptor) : null;
            if (member != null) {
                found.add(member);
            }
        }
        return found;
    }

    private void come(World.Member member) {
        if (member != null && reached.putIfAbsent(member.method, member.owner) == null) {
            waiting.add(member);
        }
    }

    /** A class is initialised, with those above it. */
    private void begin(String name) {
        for (ClassNode node : world.above(name)) {
            if (begun.add(node.name)) {
                MethodNode first = World.declared(node, "<clinit>", "()V");
                if (first != null) {
                    come(new World.Member(node, first));
                }
            }
        }
    }

    private void make(String name) {
        begin(name);
        if (made.add(name)) {
            for (Site site : new ArrayList<>(sites.values())) {
                if (world.isBelow(name, site.owner)) {
                    come(world.select(name, site.name, site.descriptor));
                }
            }
        }
    }

    private void site(String owner, String name, String descriptor) {
        String first = owner.startsWith("[") ? World.OBJECT : owner;
        if (sites.putIfAbsent(first + "." + name + descriptor, new Site(first, name, descriptor)) == null) {
            for (World.Member member : targets(first, name, descriptor)) {
                come(member);
            }
        }
    }

    private void scan(ClassNode node, MethodNode method) {
        if (world.isCore(node.name)) {
            backCalls(method);
            return;
        }
        for (AbstractInsnNode at : method.instructions) {
            if (at instanceof MethodInsnNode) {
                call((MethodInsnNode) at);
            } else if (at.getOpcode() == Opcodes.NEW && world.has(((TypeInsnNode) at).desc)) {
                make(((TypeInsnNode) at).desc);
            } else if (at.getOpcode() == Opcodes.GETSTATIC || at.getOpcode() == Opcodes.PUTSTATIC) {
                FieldInsnNode field = (FieldInsnNode) at;
                ClassNode owner = world.fieldOwner(field.owner, field.name, field.desc);
                if (owner != null) {
                    begin(owner.name);
                }
            }
        }
    }

    private void call(MethodInsnNode call) {
        World.Member member = world.resolve(call.owner, call.name, call.desc);
        if (member == null) {
            return;
        }
        boolean selects = call.getOpcode() == Opcodes.INVOKEVIRTUAL || call.getOpcode() == Opcodes.INVOKEINTERFACE;
        if (selects && !member.is(Opcodes.ACC_PRIVATE)) {
            if (world.isCore(member.owner.name)) {
                come(member);
            }
            site(call.owner, call.name, call.desc);
        } else {
            if (call.getOpcode() == Opcodes.INVOKESTATIC) {
                begin(member.owner.name);
            }
            come(member);
        }
    }

    /** What a core method calls by itself. */
    private void backCalls(MethodNode method) {
        boolean takesObject = method.desc.startsWith("(Ljava/lang/Object;)") && !method.name.equals("equals") && !method.name.equals("compareTo");
        boolean takesCause = method.name.equals("<init>") && method.desc.equals("(Ljava/lang/Throwable;)V");
        if (takesObject) {
            site(World.OBJECT, "toString", TEXT);
        } else if (takesCause) {
            site(THROWABLE, "toString", TEXT);
        } else if (method == World.declared(world.get(THROWABLE), "toString", TEXT)) {
            site(THROWABLE, "getLocalizedMessage", TEXT);
        } else if (method == World.declared(world.get(THROWABLE), "getLocalizedMessage", TEXT)) {
            site(THROWABLE, "getMessage", TEXT);
        }
    }
}
