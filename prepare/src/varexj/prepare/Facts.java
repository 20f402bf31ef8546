package varexj.prepare;

import java.util.ArrayList;
import java.util.List;
import java.util.Map;
import java.util.TreeMap;
import java.util.TreeSet;
import org.objectweb.asm.tree.AbstractInsnNode;
import org.objectweb.asm.tree.LineNumberNode;
import org.objectweb.asm.tree.MethodNode;

/** What is told of a preparation: one fact a line, sorted. */
final class Facts {
    private final TreeSet<String> lines = new TreeSet<>();
    private final Map<String, Integer> redirected = new TreeMap<>();
    private boolean counts = true;
    private String place = "";

    /** Says of which class the facts to come are. Redirects of the library's own classes are not counted. */
    void of(String type, boolean ofProgram) {
        place = type;
        counts = ofProgram;
    }

    void redirected(String member) {
        if (counts) {
            redirected.merge(member, 1, Integer::sum);
        }
    }

    void loose(String what, AbstractInsnNode at, MethodNode method) {
        lines.add("loose " + what + " " + place + "." + method.name + " " + line(at));
    }

    void add(String line) {
        lines.add(line);
    }

    /** The line of source of an instruction, or a dash. */
    static String line(AbstractInsnNode from) {
        for (AbstractInsnNode at = from; at != null; at = at.getPrevious()) {
            if (at instanceof LineNumberNode) {
                return String.valueOf(((LineNumberNode) at).line);
            }
        }
        return "-";
    }

    List<String> all() {
        List<String> all = new ArrayList<>(lines);
        for (Map.Entry<String, Integer> each : redirected.entrySet()) {
            all.add("redirected " + each.getKey() + " " + each.getValue());
        }
        all.sort(null);
        return all;
    }
}
