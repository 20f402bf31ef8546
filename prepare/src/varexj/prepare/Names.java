package varexj.prepare;

import java.util.HashMap;
import java.util.Map;
import java.util.Set;
import org.objectweb.asm.commons.ClassRemapper;
import org.objectweb.asm.commons.SimpleRemapper;
import org.objectweb.asm.tree.ClassNode;
import org.objectweb.asm.tree.InnerClassNode;

/** The names of a class as the class library gives them. */
final class Names {
    /** Collections for several threads, and what stands for them where there is one thread and orders may differ. */
    private static final Map<String, String> SINGLE = single();

    /** What getSimpleName gives: the inner name where the class file has one, nothing for an anonymous class. */
    final String simple;
    /** Whether it stands in another class, and whether as a member of it. */
    final boolean isInner;
    final boolean isMember;
    /** The class of which it is a member, or null. */
    final String outer;

    private Names(String simple, InnerClassNode inner) {
        this.simple = simple;
        this.isInner = inner != null;
        this.outer = inner == null ? null : inner.outerName;
        this.isMember = outer != null && inner.innerName != null;
    }

    static Names of(ClassNode node) {
        for (InnerClassNode inner : node.innerClasses) {
            if (inner.name.equals(node.name)) {
                return new Names(inner.innerName == null ? "" : inner.innerName, inner);
            }
        }
        return new Names(node.name.substring(node.name.lastIndexOf('/') + 1), null);
    }

    private static Map<String, String> single() {
        Map<String, String> names = new HashMap<>();
        names.put("java/util/concurrent/ConcurrentHashMap", "java/util/HashMap");
        names.put("java/util/concurrent/ConcurrentMap", "java/util/Map");
        names.put("java/util/concurrent/ConcurrentSkipListMap", "java/util/TreeMap");
        names.put("java/util/concurrent/ConcurrentLinkedQueue", "java/util/ArrayDeque");
        names.put("java/util/concurrent/CopyOnWriteArrayList", "java/util/ArrayList");
        return names;
    }

    /** The class with names of collections for one thread, where that was asked for. */
    static ClassNode renamed(ClassNode node, boolean loose, Facts facts) {
        Set<String> named = Library.named(node);
        named.retainAll(SINGLE.keySet());
        if (!loose || named.isEmpty()) {
            return node;
        }
        for (String name : named) {
            facts.add("loose concurrent " + node.name + " " + name);
        }
        ClassNode renamed = new ClassNode();
        node.accept(new ClassRemapper(renamed, new SimpleRemapper(SINGLE)));
        return renamed;
    }

    static String source(String internal) {
        return internal.replace('/', '.');
    }
}
