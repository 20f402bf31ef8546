import com.github.difflib.DiffUtils;
import com.github.difflib.patch.AbstractDelta;
import com.github.difflib.patch.Patch;
import com.github.difflib.patch.PatchFailedException;
import java.util.ArrayList;
import java.util.Arrays;
import java.util.List;

/** Which edits come where, of texts under options. */
public class Main {
    static boolean A, B, C, D, E, F, G, H;

    public static void main(String[] args) throws PatchFailedException {
        List<String> left = new ArrayList<>(Arrays.asList("one", "two", "three", "four"));
        List<String> right = new ArrayList<>(left);
        if (A) {
            right.remove("two");
        }
        if (B) {
            right.add(0, "zero");
        }
        if (C) {
            right.set(right.size() - 1, "last");
        }
        if (D) {
            left.add("five");
        }
        if (E) {
            right.add("five");
        }
        if (F) {
            right.addAll(1, Arrays.asList("x", "y"));
        }
        Patch<String> patch = DiffUtils.diff(left, right);
        for (AbstractDelta<String> delta : patch.getDeltas()) {
            System.out.println(delta.getType() + " " + delta.getSource().getPosition() + " " + delta.getSource().getLines() + " " + delta.getTarget().getLines());
        }
        if (G) {
            System.out.println(DiffUtils.patch(left, patch).equals(right));
        }
        if (H) {
            left.set(0, "changed");
            try {
                System.out.println(DiffUtils.patch(left, patch));
            } catch (PatchFailedException e) {
                System.out.println("failed");
            }
        }
    }
}
