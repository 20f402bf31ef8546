import java.util.ArrayList;
import java.util.Collections;
import java.util.Comparator;
import java.util.EnumMap;
import java.util.EnumSet;
import java.util.HashMap;
import java.util.IdentityHashMap;
import java.util.List;
import java.util.Map;
import java.util.Objects;
import java.util.Optional;
import java.util.Set;
import java.util.StringJoiner;
import java.util.StringTokenizer;
import java.util.function.Function;
import java.util.function.Predicate;

/** Enums in maps and sets, values that may be missing, lists of one's own, words. */
public class Main {
    enum Shape { DOT, LINE, BOX, BALL, RING }

    private static Set<Shape> chosen() {
        Set<Shape> shapes = EnumSet.of(Shape.LINE, Shape.BOX);
        if (Options.ROUND) {
            shapes.addAll(EnumSet.of(Shape.RING, Shape.BALL));
        }
        if (Options.FLAT) {
            shapes.remove(Shape.BOX);
            shapes.add(Shape.DOT);
        }
        return shapes;
    }

    private static Optional<Shape> first(Set<Shape> shapes, Predicate<Shape> test) {
        for (Shape shape : shapes) {
            if (test.test(shape)) {
                return Optional.of(shape);
            }
        }
        return Optional.empty();
    }

    public static void main(String[] arguments) {
        Set<Shape> shapes = chosen();
        Map<Shape, List<Integer>> sizes = new EnumMap<>(Shape.class);
        for (Shape shape : shapes) {
            sizes.put(shape, new Row(shape.ordinal(), Options.MANY ? 4 : 2));
        }
        System.out.println(shapes + " " + sizes + " " + sizes.containsKey(Shape.BALL));
        Map<Shape, Integer> prices = new HashMap<>();
        for (Map.Entry<Shape, List<Integer>> entry : sizes.entrySet()) {
            prices.put(entry.getKey(), ((Row) entry.getValue()).sum());
        }
        System.out.println(prices.get(Shape.LINE) + " " + prices.get(Shape.RING) + " " + prices.size());
        Optional<Shape> rare = first(shapes, new Predicate<Shape>() {
            @Override
            public boolean test(Shape shape) {
                return shape.ordinal() > (Options.RARE ? 3 : 1);
            }
        });
        System.out.println(rare + " " + rare.isPresent() + " " + rare.map(new Function<Shape, String>() {
            @Override
            public String apply(Shape shape) {
                return Options.NAMED ? shape.name() : null;
            }
        }).orElse("nameless"));
        StringJoiner words = new StringJoiner(", ", "<", ">");
        words.setEmptyValue("no words");
        StringTokenizer tokens = new StringTokenizer(Options.NAMED ? "box of balls,  and a ring" : " ,", " ,");
        List<String> all = new ArrayList<>();
        while (tokens.hasMoreTokens()) {
            String word = tokens.nextToken();
            words.add(word);
            all.add(word);
        }
        all.sort(Comparator.comparing(new Function<String, Integer>() {
            @Override
            public Integer apply(String word) {
                return word.length();
            }
        }).thenComparing(Comparator.<String>reverseOrder()));
        System.out.println(words + " " + all + " " + Objects.hash(all, words.length(), null));
        Row row = new Row(1, 6);
        List<Integer> part = row.subList(2, 5);
        System.out.println(part + " " + part.indexOf(4) + " " + row.contains(9) + " " + row.hashCode() + " " + row.equals(new ArrayList<>(row)));
        Map<Object, Integer> same = new IdentityHashMap<>();
        same.put(row, 1);
        same.put(new Row(1, 6), 2);
        same.put(row, 3);
        System.out.println(same.size() + " " + same.get(row) + " " + same.containsKey(new Row(1, 6)) + " " + Collections.frequency(new ArrayList<>(same.values()), 2));
        List<Integer> mine = Options.RARE ? row : new ArrayList<>(row);
        mine.add(7);
        System.out.println(mine + " " + rare.get());
    }
}
