package varexj.prepare;

import java.lang.reflect.Method;
import java.lang.reflect.Modifier;
import java.util.ArrayList;
import java.util.LinkedHashSet;
import java.util.Set;
import org.objectweb.asm.tree.ClassNode;

/**
 * Interfaces of the Java machine's class library that aren't here. A class that implements one gets those above it in its place, as far as none has a method
 * with a body: then nothing is lost but the name, and whoever uses that ends the run.
 */
final class Missing {
    private Missing() {
    }

    static void replace(World world, Library library, ClassNode node, Facts facts) {
        for (String name : new ArrayList<>(node.interfaces)) {
            Set<String> known = new LinkedHashSet<>();
            if (!isThere(world, library, name) && above(world, library, name, known)) {
                int at = node.interfaces.indexOf(name);
                node.interfaces.remove(at);
                known.removeAll(node.interfaces);
                node.interfaces.addAll(at, known);
                facts.add("replaced " + node.name + " " + name + (known.isEmpty() ? "" : " " + String.join(" ", known)));
            }
        }
    }

    private static boolean isThere(World world, Library library, String name) {
        return world.has(name) || library.has(name);
    }

    /** Collects the interfaces above a missing one that are there; gives whether the missing ones are known, and have no bodies. */
    private static boolean above(World world, Library library, String name, Set<String> known) {
        Class<?> type = ofTheMachine(name);
        if (type == null || !type.isInterface()) {
            return false;
        }
        for (Method method : type.getDeclaredMethods()) {
            if (!Modifier.isAbstract(method.getModifiers()) && !Modifier.isStatic(method.getModifiers())) {
                return false;
            }
        }
        for (Class<?> each : type.getInterfaces()) {
            String next = each.getName().replace('.', '/');
            if (isThere(world, library, next)) {
                known.add(next);
            } else if (!above(world, library, next, known)) {
                return false;
            }
        }
        return true;
    }

    /** The interface as the Java machine that runs this has it, or null. */
    private static Class<?> ofTheMachine(String name) {
        try {
            return name.startsWith("java/") ? Class.forName(name.replace('/', '.'), false, null) : null;
        } catch (ClassNotFoundException e) {
            return null;
        }
    }
}
