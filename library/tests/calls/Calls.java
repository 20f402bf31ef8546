package calls;

import java.lang.reflect.Constructor;
import java.util.*;
import java.util.function.*;

/**
 * Random calls of collections, as a seed decides. Each call gives a line: what was called, what came of it, and the size, the text and the hash afterwards.
 * The same class runs on the Java machine's collections and, renamed, on the library's.
 */
public final class Calls {
    enum Colour { RED, GREEN, BLUE, WHITE, BLACK, GREY, PINK }

    private long state;
    private int domain;
    private int range;
    private final ArrayList<String> lines = new ArrayList<String>();
    private StringBuilder line;

    private Calls(long seed) {
        state = seed * 0x9E3779B97F4A7C15L + 0x1234567;
        for (int i = 0; i < 4; i++) {
            r(2);
        }
        domain = r(7);
        range = new int[] {6, 12, 30, 60, 200, 1000}[r(6)];
    }

    private int r(int bound) {
        state ^= state << 13;
        state ^= state >>> 7;
        state ^= state << 17;
        return (int) ((state >>> 11) % bound);
    }

    /** The lines of so many calls of a kind of collection. */
    public static String[] run(String kind, long seed, int count) {
        Calls calls = new Calls(seed);
        try {
            calls.all(kind, count);
        } catch (UnsatisfiedLinkError e) {
            calls.lines.add("native " + e.getMessage());
        }
        return calls.lines.toArray(new String[0]);
    }

    private void all(String kind, int count) {
        switch (kind) {
            case "ArrayList": new Lists(r(2) == 0 ? new ArrayList<Object>() : new ArrayList<Object>(r(40))).calls(count); break;
            case "LinkedList": new Lists(new LinkedList<Object>()).calls(count); break;
            case "Vector": new Lists(r(2) == 0 ? new Vector<Object>() : new Stack<Object>()).calls(count); break;
            case "AbstractList": new Lists(new Own()).calls(count); break;
            case "HashMap": new Maps(r(2) == 0 ? new HashMap<Object, Object>() : new HashMap<Object, Object>(r(3) == 0 ? r(300) : r(20))).calls(count); break;
            case "LinkedHashMap": new Maps(linked(r(3))).calls(count); break;
            case "Hashtable": new Maps(r(2) == 0 ? new Hashtable<Object, Object>() : new Hashtable<Object, Object>(r(20))).calls(count); break;
            case "Properties": new Maps(new Properties()).calls(count); break;
            case "AbstractMap": new Maps(new OwnMap()).calls(count); break;
            case "TreeMap": alike(); new Maps(r(2) == 0 ? new TreeMap<Object, Object>() : new TreeMap<Object, Object>(down())).calls(count); break;
            case "EnumMap": domain = 7; new Maps(colours()).calls(count); break;
            case "HashSet": new Sets(r(2) == 0 ? new HashSet<Object>() : new HashSet<Object>(r(40))).calls(count); break;
            case "LinkedHashSet": new Sets(new LinkedHashSet<Object>()).calls(count); break;
            case "TreeSet": alike(); new Sets(r(2) == 0 ? new TreeSet<Object>() : new TreeSet<Object>(down())).calls(count); break;
            case "EnumSet": domain = 7; new Sets(noColours()).calls(count); break;
            case "ArrayDeque": new Queues(new ArrayDeque<Object>()).calls(count); break;
            case "LinkedDeque": new Queues(new LinkedList<Object>()).calls(count); break;
            case "PriorityQueue": alike(); new Queues(r(2) == 0 ? new PriorityQueue<Object>() : new PriorityQueue<Object>(down())).calls(count); break;
            case "LifoQueue": new Queues(Collections.asLifoQueue(new ArrayDeque<Object>())).calls(count); break;
            case "BitSet": bits(count); break;
            case "Arrays": arrays(count); break;
            case "Collections": collections(count); break;
            case "Fixed": fixed(count); break;
            case "Others": others(count); break;
            default: throw new IllegalArgumentException(kind);
        }
    }

    @SuppressWarnings({"unchecked", "rawtypes"})
    private static Map<Object, Object> colours() {
        return new EnumMap(Colour.class);
    }

    @SuppressWarnings({"unchecked", "rawtypes"})
    private static Set<Object> noColours() {
        return (Set) EnumSet.noneOf(Colour.class);
    }

    /** Elements that can be compared, but for some nulls. */
    private void alike() {
        domain = domain == 6 ? 8 : domain;
    }

    /** A map of linked entries: plain, by access, or of at most ten entries. */
    @SuppressWarnings("unchecked")
    private Map<Object, Object> linked(int which) {
        if (which == 0) {
            return new LinkedHashMap<Object, Object>();
        }
        if (which == 1) {
            return new LinkedHashMap<Object, Object>() {
                protected boolean removeEldestEntry(Map.Entry<Object, Object> eldest) {
                    return size() > 10;
                }
            };
        }
        try {
            for (Constructor<?> made : LinkedHashMap.class.getConstructors()) {
                if (made.getParameterCount() == 3) {
                    return (Map<Object, Object>) made.newInstance(16, 0.75f, true);
                }
            }
            return (Map<Object, Object>) LinkedHashMap.class.getConstructor(int.class, boolean.class).newInstance(16, true);
        } catch (ReflectiveOperationException e) {
            throw new IllegalStateException(e);
        }
    }

    @SuppressWarnings({"unchecked", "rawtypes"})
    private static Comparator<Object> down() {
        return (Comparator) Comparator.reverseOrder();
    }

    /** A list of one's own over the abstract one. */
    static final class Own extends AbstractList<Object> {
        private final Object[] items = new Object[4000];
        private int size;

        public int size() {
            return size;
        }

        public Object get(int index) {
            if (index < 0 || index >= size) {
                throw new IndexOutOfBoundsException();
            }
            return items[index];
        }

        public Object set(int index, Object element) {
            Object old = get(index);
            items[index] = element;
            return old;
        }

        public void add(int index, Object element) {
            if (index < 0 || index > size) {
                throw new IndexOutOfBoundsException();
            }
            System.arraycopy(items, index, items, index + 1, size - index);
            items[index] = element;
            size++;
            modCount++;
        }

        public Object remove(int index) {
            Object old = get(index);
            System.arraycopy(items, index + 1, items, index, size - index - 1);
            size--;
            modCount++;
            return old;
        }
    }

    /** A map of one's own over the abstract one. */
    static final class OwnMap extends AbstractMap<Object, Object> {
        private final ArrayList<Map.Entry<Object, Object>> all = new ArrayList<Map.Entry<Object, Object>>();

        public Object put(Object key, Object value) {
            for (Map.Entry<Object, Object> entry : all) {
                if (Objects.equals(entry.getKey(), key)) {
                    return entry.setValue(value);
                }
            }
            all.add(new AbstractMap.SimpleEntry<Object, Object>(key, value));
            return null;
        }

        public Set<Map.Entry<Object, Object>> entrySet() {
            return new AbstractSet<Map.Entry<Object, Object>>() {
                public Iterator<Map.Entry<Object, Object>> iterator() {
                    return all.iterator();
                }

                public int size() {
                    return all.size();
                }
            };
        }
    }

    private Object element() {
        switch (domain) {
            case 0: return r(range);
            case 1: return r(range) * 16;
            case 2: return r(range) * 65536 + r(3);
            case 3: return "k" + r(range);
            case 4: return (r(2) == 0 ? "Aa" : "BB") + (r(2) == 0 ? "Aa" : "BB") + r(range);
            case 5: return (int) state;
            case 6: {
                int which = r(range);
                return which == 0 ? null : which == 1 ? Boolean.TRUE : which == 2 ? Boolean.FALSE : which % 2 == 0 ? (Object) which : "s" + which;
            }
            case 8: return r(15) == 0 ? null : (Object) r(range);
            default: return Colour.values()[r(7)];
        }
    }

    private Object value() {
        return r(9) == 0 ? null : (Object) r(50);
    }

    /** What an object is, in a text that both machines give. */
    private static String told(Object o) {
        if (o instanceof Object[]) {
            return Arrays.deepToString((Object[]) o);
        }
        return String.valueOf(o);
    }

    private static String named(Throwable e) {
        String name = e.getClass().getName();
        return "threw " + name.substring(name.lastIndexOf('.') + 1);
    }

    /** One call, in which the words and the result are told. */
    private abstract class Steps {
        abstract Object step(int op);

        abstract String after();

        abstract int kinds();

        void calls(int count) {
            for (int i = 0; i < count; i++) {
                int op = r(kinds());
                line = new StringBuilder().append(op).append(' ');
                try {
                    line.append(told(step(op)));
                } catch (UnsatisfiedLinkError e) {
                    throw e;
                } catch (RuntimeException e) {
                    line.append(named(e));
                } catch (StackOverflowError e) {
                    line.append("overflow");
                }
                line.append(" | ").append(after());
                lines.add(line.toString());
            }
        }
    }

    private void say(Object word) {
        line.append(word).append(' ');
    }

    private static String state(Collection<?> c) {
        String text;
        try {
            text = c.size() + " " + c;
        } catch (RuntimeException e) {
            text = named(e);
        }
        return text;
    }

    private static String state(Map<?, ?> map) {
        String text;
        try {
            text = map.size() + " " + map;
        } catch (RuntimeException e) {
            text = named(e);
        }
        return text;
    }

    private Collection<Object> some() {
        Collection<Object> c;
        switch (r(4)) {
            case 0: c = new ArrayList<Object>(); break;
            case 1: c = new LinkedList<Object>(); break;
            case 2: c = new HashSet<Object>(); break;
            default: c = new LinkedHashSet<Object>(); break;
        }
        int count = r(6);
        for (int i = 0; i < count; i++) {
            c.add(element());
        }
        return c;
    }

    private Predicate<Object> test() {
        final int bound = 2 + r(4);
        return new Predicate<Object>() {
            public boolean test(Object o) {
                return o != null && (o instanceof Colour ? ((Colour) o).ordinal() : Math.abs(o.hashCode())) % bound == 0;
            }
        };
    }

    /** Calls of lists, and of parts of them. */
    private final class Lists extends Steps {
        private final List<Object> main;
        private final List<List<Object>> targets = new ArrayList<List<Object>>();
        private ListIterator<Object> walk;
        private Iterator<Object> plain;

        Lists(List<Object> main) {
            this.main = main;
            targets.add(main);
        }

        int kinds() {
            return 62;
        }

        String after() {
            String text = state(main) + " " + (r(3) == 0 ? "" + main.hashCode() : "");
            for (int i = 1; i < targets.size(); i++) {
                text += " / " + state(targets.get(i));
            }
            return text;
        }

        private int place(List<Object> list) {
            int size;
            try {
                size = list.size();
            } catch (ConcurrentModificationException e) {
                size = 3;
            }
            return r(12) == 0 ? r(size + 4) - 2 : size == 0 ? 0 : r(size);
        }

        Object step(int op) {
            List<Object> list = targets.get(r(targets.size()));
            int at = place(list);
            int from;
            if (main.size() > range * 3 + 20) {
                main.subList(5, main.size() / 2).clear();
            }
            say(at);
            switch (op) {
                case 0: case 1: case 2: case 3: case 4: case 5: case 6: return list.add(element());
                case 7: case 8: case 9: list.add(at, element()); return "added";
                case 10: case 11: return list.remove(at);
                case 12: case 13: return list.remove(element());
                case 14: case 15: return list.get(at);
                case 16: case 17: return list.set(at, element());
                case 18: return list.indexOf(element());
                case 19: return list.lastIndexOf(element());
                case 20: return list.contains(element());
                case 21: return list.addAll(some());
                case 22: return list.addAll(at, some());
                case 23: return list.removeAll(some());
                case 24: return r(6) == 0 ? list.retainAll(some()) : list.containsAll(some());
                case 25: if (r(12) == 0) { list.clear(); } return "cleared";
                case 26: return list.isEmpty();
                case 27: return list.toArray();
                case 28: return list.toArray(new Object[1 + r(10)]);
                case 29: return list.equals(new ArrayList<Object>(main));
                case 30: return list.hashCode();
                case 31: if (targets.size() > 3) { targets.subList(1, targets.size()).clear(); } from = place(list);
                    targets.add(list.subList(Math.min(at, from), Math.max(at, from))); return "part";
                case 32: if (targets.size() > 1) { targets.remove(targets.size() - 1); } return "no part";
                case 33: case 34: walk = list.listIterator(at); return "walk";
                case 35: plain = list.iterator(); return "plain";
                case 36: case 37: case 38: case 39: return walk == null ? "none" : walk.next();
                case 40: case 41: return walk == null ? "none" : walk.previous();
                case 42: case 43: if (walk != null) { walk.remove(); } return "removed";
                case 44: if (walk != null) { walk.set(element()); } return "set";
                case 45: if (walk != null) { walk.add(element()); } return "added";
                case 46: return walk == null ? "none" : walk.hasNext() + " " + walk.hasPrevious() + " " + walk.nextIndex() + " " + walk.previousIndex();
                case 47: case 48: return plain == null ? "none" : plain.next();
                case 49: return plain == null ? "none" : plain.hasNext();
                case 50: if (plain != null) { plain.remove(); } return "removed";
                case 51: return list.removeIf(test());
                case 52: list.replaceAll(new UnaryOperator<Object>() {
                    public Object apply(Object o) {
                        return o == null ? "null" : o;
                    }
                }); return "replaced";
                case 53: list.sort(order()); return "sorted";
                case 54: {
                    final StringBuilder all = new StringBuilder();
                    list.forEach(new Consumer<Object>() {
                        public void accept(Object o) {
                            all.append(o).append(' ');
                        }
                    });
                    return all;
                }
                case 55: {
                    final List<Object> changed = main;
                    final int when = r(8);
                    list.forEach(new Consumer<Object>() {
                        private int count;

                        public void accept(Object o) {
                            if (count++ == when) {
                                changed.add(o);
                            }
                        }
                    });
                    return "changed within";
                }
                case 56: return copied();
                case 57: Collections.reverse(list); return "reversed";
                case 58: Collections.swap(list, at, place(list)); return "swapped";
                case 59: return own(at);
                case 60: {
                    StringBuilder all = new StringBuilder();
                    for (Object o : list) {
                        all.append(o).append(';');
                        if (r(20) == 0) {
                            main.remove(o);
                        }
                    }
                    return all;
                }
                default: return list.containsAll(new ArrayList<Object>(main));
            }
        }

        private Object copied() {
            if (main instanceof ArrayList) {
                return ((ArrayList<?>) main).clone();
            }
            if (main instanceof LinkedList) {
                return ((LinkedList<?>) main).clone();
            }
            return main instanceof Vector ? ((Vector<?>) main).clone() : "none";
        }

        /** What only a class of list has. */
        private Object own(int at) {
            if (main instanceof ArrayList) {
                if (r(4) == 0 && walk == null && plain == null && targets.size() == 1) {
                    ((ArrayList<?>) main).ensureCapacity(r(100));
                    ((ArrayList<?>) main).trimToSize();
                }
                return "room";
            }
            if (main instanceof Stack) {
                Stack<Object> stack = (Stack<Object>) main;
                switch (r(5)) {
                    case 0: return stack.push(element());
                    case 1: return stack.pop();
                    case 2: return stack.peek();
                    case 3: return stack.search(element());
                    default: return stack.empty();
                }
            }
            if (main instanceof Vector) {
                Vector<Object> vector = (Vector<Object>) main;
                switch (r(14)) {
                    case 0: return vector.capacity();
                    case 1: vector.ensureCapacity(r(40)); return vector.capacity();
                    case 2: vector.trimToSize(); return vector.capacity();
                    case 3: vector.setSize(Math.max(0, at)); return vector.capacity();
                    case 4: return vector.elementAt(at);
                    case 5: return vector.firstElement();
                    case 6: return vector.lastElement();
                    case 7: vector.insertElementAt(element(), at); return "inserted";
                    case 8: vector.removeElementAt(at); return "removed";
                    case 9: vector.setElementAt(element(), at); return "set";
                    case 10: return vector.indexOf(element(), Math.max(0, at));
                    case 11: return vector.lastIndexOf(element(), at);
                    case 12: return Collections.list(vector.elements());
                    default: vector.addElement(element()); return vector.removeElement(element());
                }
            }
            return "none";
        }
    }

    private Comparator<Object> order() {
        final boolean down = r(2) == 0;
        if (r(3) == 0 && domain != 6) {
            return null;
        }
        return new Comparator<Object>() {
            public int compare(Object a, Object b) {
                int one = a == null ? -1 : a.hashCode() % 7;
                int other = b == null ? -1 : b.hashCode() % 7;
                return down ? Integer.compare(other, one) : Integer.compare(one, other);
            }
        };
    }

    /** Calls of maps, of their views, and of ranges of sorted ones. */
    private final class Maps extends Steps {
        private final Map<Object, Object> main;
        private final List<Map<Object, Object>> targets = new ArrayList<Map<Object, Object>>();
        private Iterator<?> walk;
        private Map.Entry<Object, Object> entry;

        Maps(Map<Object, Object> main) {
            this.main = main;
            targets.add(main);
        }

        int kinds() {
            return 66;
        }

        String after() {
            String text = state(main) + (r(3) == 0 && domain != 7 ? " " + main.hashCode() : "");
            for (int i = 1; i < targets.size(); i++) {
                text += " / " + state(targets.get(i));
            }
            return text;
        }

        private Map<Object, Object> others() {
            Map<Object, Object> map = r(2) == 0 ? new HashMap<Object, Object>() : new LinkedHashMap<Object, Object>();
            int count = r(4) == 0 ? r(40) : r(5);
            for (int i = 0; i < count; i++) {
                map.put(element(), value());
            }
            return map;
        }

        private BiFunction<Object, Object, Object> function() {
            final int kind = r(5);
            return new BiFunction<Object, Object, Object>() {
                public Object apply(Object one, Object other) {
                    if (kind == 0) {
                        return null;
                    }
                    if (kind == 1 && r(4) == 0) {
                        main.put(element(), 77);
                    }
                    return kind + (one instanceof Integer ? (Integer) one : 0) % 100 + (other instanceof Integer ? (Integer) other : 1) % 100;
                }
            };
        }

        Object step(int op) {
            Map<Object, Object> map = targets.get(r(targets.size()));
            Object key = element();
            say(key);
            switch (op) {
                case 0: case 1: case 2: case 3: case 4: case 5: case 6: case 7: return map.put(key, value());
                case 8: case 9: case 10: return map.remove(key);
                case 11: case 12: return map.get(key);
                case 13: return map.containsKey(key);
                case 14: return map.containsValue(value());
                case 15: map.putAll(others()); return "all";
                case 16: if (r(20) == 0) { map.clear(); } return "cleared";
                case 17: return map.getOrDefault(key, "default");
                case 18: case 19: return map.putIfAbsent(key, value());
                case 20: return map.remove(key, value());
                case 21: return map.remove(key, map.get(key));
                case 22: return map.replace(key, value());
                case 23: return map.replace(key, map.get(key), value());
                case 24: case 25: case 26: {
                    final Object result = r(5) == 0 ? null : (Object) r(30);
                    return map.computeIfAbsent(key, new Function<Object, Object>() {
                        public Object apply(Object o) {
                            return result;
                        }
                    });
                }
                case 27: return map.computeIfPresent(key, function());
                case 28: case 29: return map.compute(key, function());
                case 30: case 31: case 32: return map.merge(key, r(20), function());
                case 33: {
                    final StringBuilder all = new StringBuilder();
                    map.forEach(new BiConsumer<Object, Object>() {
                        public void accept(Object one, Object other) {
                            all.append(one).append(':').append(other).append(' ');
                        }
                    });
                    return all;
                }
                case 34: map.replaceAll(new BiFunction<Object, Object, Object>() {
                    public Object apply(Object one, Object other) {
                        return other == null ? 3 : other;
                    }
                }); return "replaced";
                case 35: walk = map.keySet().iterator(); return "keys";
                case 36: walk = map.values().iterator(); return "values";
                case 37: case 38: walk = map.entrySet().iterator(); return "entries";
                case 39: case 40: case 41: case 42: case 43: return next();
                case 44: case 45: if (walk != null) { walk.remove(); entry = null; } return "removed";
                case 46: return walk == null ? "none" : walk.hasNext();
                case 47: return entry == null ? "none" : entry.setValue(r(40));
                case 48: return map.keySet().remove(key);
                case 49: return map.values().remove(value());
                case 50: return map.entrySet().remove(new AbstractMap.SimpleEntry<Object, Object>(key, map.get(key)));
                case 51: return map.entrySet().contains(new AbstractMap.SimpleEntry<Object, Object>(key, value()));
                case 52: return map.keySet().removeAll(some());
                case 53: return r(6) == 0 ? map.keySet().retainAll(some()) : map.keySet().containsAll(some());
                case 54: return map.keySet().removeIf(test());
                case 55: return r(4) == 0 && map.values().removeIf(test());
                case 56: return map.keySet().toArray();
                case 57: return map.values().toArray(new Object[1 + r(4)]);
                case 58: return map.equals(new HashMap<Object, Object>(main)) + " " + map.keySet().equals(main.keySet()) + " " + (domain == 7 ? 0 : map.entrySet().hashCode());
                case 59: return copied();
                case 60: {
                    StringBuilder all = new StringBuilder();
                    for (Map.Entry<Object, Object> each : map.entrySet()) {
                        all.append(each).append(' ');
                        if (r(25) == 0) {
                            main.remove(each.getKey());
                        } else if (r(12) == 0) {
                            each.setValue(r(8));
                        }
                    }
                    return all;
                }
                case 61: return map.keySet() + " " + map.values() + " " + map.entrySet();
                default: return sorted(map, key);
            }
        }

        @SuppressWarnings("unchecked")
        private Object next() {
            if (walk == null) {
                return "none";
            }
            Object found = walk.next();
            if (found instanceof Map.Entry) {
                entry = (Map.Entry<Object, Object>) found;
                return entry.getKey() + "=" + entry.getValue() + " " + entry + " " + (domain == 7 ? 0 : entry.hashCode());
            }
            return found;
        }

        private Object copied() {
            if (domain == 7) {
                return new TreeMap<Object, Object>(main);
            }
            switch (r(5)) {
                case 0: return new HashMap<Object, Object>(main);
                case 1: return new LinkedHashMap<Object, Object>(main);
                case 2: return main instanceof HashMap ? ((HashMap<?, ?>) main).clone() : new HashSet<Object>(main.keySet());
                case 3: return main instanceof TreeMap ? ((TreeMap<?, ?>) main).clone() : new ArrayList<Object>(main.values());
                default: return new TreeMap<Object, Object>(main);
            }
        }

        private Object sorted(Map<Object, Object> map, Object key) {
            if (!(map instanceof NavigableMap)) {
                return "none";
            }
            NavigableMap<Object, Object> sorted = (NavigableMap<Object, Object>) map;
            boolean inclusive = r(2) == 0;
            switch (r(34)) {
                case 0: return sorted.firstKey();
                case 1: return sorted.lastKey();
                case 2: return sorted.firstEntry();
                case 3: return sorted.lastEntry();
                case 4: return r(3) == 0 ? sorted.pollFirstEntry() : "no poll";
                case 5: return r(3) == 0 ? sorted.pollLastEntry() : "no poll";
                case 6: return sorted.lowerKey(key);
                case 7: return sorted.floorKey(key);
                case 8: return sorted.ceilingKey(key);
                case 9: return sorted.higherKey(key);
                case 10: return sorted.lowerEntry(key);
                case 11: return sorted.floorEntry(key);
                case 12: return sorted.ceilingEntry(key);
                case 13: return sorted.higherEntry(key);
                case 14: return sorted.descendingMap() + " " + sorted.descendingKeySet();
                case 15: return sorted.headMap(key) + " " + sorted.headMap(key, inclusive).size();
                case 16: return sorted.tailMap(key) + " " + sorted.tailMap(key, inclusive).size();
                case 17: return sorted.subMap(key, element());
                case 18: return sorted.navigableKeySet().headSet(key, inclusive);
                case 19: return sorted.navigableKeySet().tailSet(key, inclusive).descendingSet();
                case 20: return sorted.navigableKeySet().subSet(key, inclusive, element(), r(2) == 0);
                case 21: return r(3) == 0 ? sorted.navigableKeySet().pollFirst() : sorted.navigableKeySet().lower(key);
                case 22: return r(3) == 0 ? sorted.navigableKeySet().pollLast() : sorted.navigableKeySet().ceiling(key);
                case 23: return sorted.navigableKeySet().first() + " " + sorted.navigableKeySet().last();
                case 24: walk = sorted.descendingKeySet().iterator(); return "down";
                case 25: walk = sorted.navigableKeySet().descendingIterator(); return "down";
                case 26: return sorted.comparator() == null;
                case 27: if (targets.size() > 1) { targets.remove(targets.size() - 1); } return "no range";
                default: return ranged(sorted, key, inclusive);
            }
        }

        private Object ranged(NavigableMap<Object, Object> sorted, Object key, boolean inclusive) {
            if (targets.size() > 3) {
                targets.subList(1, targets.size()).clear();
            }
            NavigableMap<Object, Object> range;
            switch (r(4)) {
                case 0: range = sorted.headMap(key, inclusive); break;
                case 1: range = sorted.tailMap(key, inclusive); break;
                case 2: range = sorted.descendingMap(); break;
                default: range = sorted.subMap(key, inclusive, element(), r(2) == 0); break;
            }
            targets.add(range);
            return "range";
        }
    }

    /** Calls of sets, and of ranges of sorted ones. */
    private final class Sets extends Steps {
        private final Set<Object> main;
        private final List<Set<Object>> targets = new ArrayList<Set<Object>>();
        private Iterator<Object> walk;

        Sets(Set<Object> main) {
            this.main = main;
            targets.add(main);
        }

        int kinds() {
            return 46;
        }

        String after() {
            String text = state(main) + (r(3) == 0 && domain != 7 ? " " + main.hashCode() : "");
            for (int i = 1; i < targets.size(); i++) {
                text += " / " + state(targets.get(i));
            }
            return text;
        }

        Object step(int op) {
            Set<Object> set = targets.get(r(targets.size()));
            Object element = element();
            say(element);
            switch (op) {
                case 0: case 1: case 2: case 3: case 4: case 5: case 6: case 7: case 8: return set.add(element);
                case 9: case 10: case 11: return set.remove(element);
                case 12: case 13: return set.contains(element);
                case 14: return set.addAll(some());
                case 15: return set.removeAll(some());
                case 16: return r(6) == 0 ? set.retainAll(some()) : set.containsAll(some());
                case 17: if (r(15) == 0) { set.clear(); } return "cleared";
                case 18: return set.isEmpty();
                case 19: return set.toArray();
                case 20: return set.toArray(new Object[1 + r(20)]);
                case 21: return set.removeIf(test());
                case 22: case 23: walk = set.iterator(); return "walk";
                case 24: case 25: case 26: case 27: return walk == null ? "none" : walk.next();
                case 28: case 29: if (walk != null) { walk.remove(); } return "removed";
                case 30: return walk == null ? "none" : walk.hasNext();
                case 31: return domain == 7 ? "none" : set.equals(new HashSet<Object>(main)) + " " + new TreeSet<Object>(main).equals(set);
                case 32: return r(2) == 0 ? new LinkedHashSet<Object>(set) : new HashSet<Object>(set).size();
                case 33: {
                    final StringBuilder all = new StringBuilder();
                    set.forEach(new Consumer<Object>() {
                        public void accept(Object o) {
                            all.append(o).append(' ');
                        }
                    });
                    return all;
                }
                case 34: {
                    StringBuilder all = new StringBuilder();
                    for (Object o : set) {
                        all.append(o).append(';');
                        if (r(20) == 0) {
                            main.remove(o);
                        }
                    }
                    return all;
                }
                case 35: return main instanceof HashSet ? ((HashSet<?>) main).clone() : main instanceof TreeSet ? ((TreeSet<?>) main).clone() : "none";
                default: return sorted(set, element);
            }
        }

        private Object sorted(Set<Object> set, Object element) {
            if (!(set instanceof NavigableSet)) {
                return "none";
            }
            NavigableSet<Object> sorted = (NavigableSet<Object>) set;
            boolean inclusive = r(2) == 0;
            switch (r(22)) {
                case 0: return sorted.first();
                case 1: return sorted.last();
                case 2: return r(3) == 0 ? sorted.pollFirst() : "no poll";
                case 3: return r(3) == 0 ? sorted.pollLast() : "no poll";
                case 4: return sorted.lower(element);
                case 5: return sorted.floor(element);
                case 6: return sorted.ceiling(element);
                case 7: return sorted.higher(element);
                case 8: return sorted.descendingSet();
                case 9: walk = sorted.descendingIterator(); return "down";
                case 10: return sorted.headSet(element);
                case 11: return sorted.tailSet(element);
                case 12: return sorted.subSet(element, element());
                case 13: return new TreeSet<Object>(sorted);
                case 14: if (targets.size() > 1) { targets.remove(targets.size() - 1); } return "no range";
                default: {
                    if (targets.size() > 3) {
                        targets.subList(1, targets.size()).clear();
                    }
                    NavigableSet<Object> range;
                    switch (r(4)) {
                        case 0: range = sorted.headSet(element, inclusive); break;
                        case 1: range = sorted.tailSet(element, inclusive); break;
                        case 2: range = sorted.descendingSet(); break;
                        default: range = sorted.subSet(element, inclusive, element(), r(2) == 0); break;
                    }
                    targets.add(range);
                    return "range";
                }
            }
        }
    }

    /** Calls of queues and deques. */
    private final class Queues extends Steps {
        private final Queue<Object> main;
        private Iterator<Object> walk;

        Queues(Queue<Object> main) {
            this.main = main;
        }

        int kinds() {
            return 50;
        }

        String after() {
            return state(main);
        }

        Object step(int op) {
            Object element = element();
            say(element);
            switch (op) {
                case 0: case 1: case 2: case 3: case 4: walk = null; return main.add(element);
                case 5: case 6: walk = null; return main.offer(element);
                case 7: case 8: walk = null; return main.poll();
                case 9: walk = null; return main.remove();
                case 10: return main.peek();
                case 11: return main.element();
                case 12: walk = null; return main.remove(element);
                case 13: return main.contains(element);
                case 14: walk = null; return main.addAll(some());
                case 15: walk = null; return main.removeAll(some());
                case 16: if (r(6) == 0) { walk = null; return main.retainAll(some()); } return "kept";
                case 17: if (r(15) == 0) { walk = null; main.clear(); } return "cleared";
                case 18: return main.toArray();
                case 19: return main.toArray(new Object[1 + r(20)]);
                case 20: walk = null; return main.removeIf(test());
                case 21: case 22: walk = main.iterator(); return "walk";
                case 23: case 24: case 25: return walk == null ? "none" : walk.next();
                case 26: case 27: if (walk != null) { walk.remove(); } return "removed";
                case 28: return walk == null ? "none" : walk.hasNext();
                case 29: {
                    final StringBuilder all = new StringBuilder();
                    main.forEach(new Consumer<Object>() {
                        public void accept(Object o) {
                            all.append(o).append(' ');
                        }
                    });
                    return all;
                }
                case 30: return main instanceof ArrayDeque ? ((ArrayDeque<?>) main).clone().toString() : main instanceof PriorityQueue ? new PriorityQueue<Object>((PriorityQueue<Object>) main).toString() : "none";
                case 31: return main instanceof PriorityQueue ? new PriorityQueue<Object>(some()).toString() : "none";
                case 32: {
                    StringBuilder all = new StringBuilder();
                    walk = null;
                    for (Iterator<Object> it = main.iterator(); it.hasNext();) {
                        all.append(it.next()).append(' ');
                        if (r(6) == 0) {
                            it.remove();
                        }
                    }
                    return all;
                }
                default: return ends(element);
            }
        }

        private Object ends(Object element) {
            if (!(main instanceof Deque)) {
                return "none";
            }
            Deque<Object> deque = (Deque<Object>) main;
            walk = null;
            switch (r(20)) {
                case 0: case 1: deque.addFirst(element); return "first";
                case 2: deque.addLast(element); return "last";
                case 3: return deque.offerFirst(element);
                case 4: return deque.offerLast(element);
                case 5: return deque.removeFirst();
                case 6: return deque.removeLast();
                case 7: return deque.pollFirst();
                case 8: return deque.pollLast();
                case 9: return deque.getFirst();
                case 10: return deque.getLast();
                case 11: return deque.peekFirst();
                case 12: return deque.peekLast();
                case 13: deque.push(element); return "pushed";
                case 14: return deque.pop();
                case 15: return deque.removeFirstOccurrence(element);
                case 16: return deque.removeLastOccurrence(element);
                default: walk = deque.descendingIterator(); return "down";
            }
        }
    }

    private void bits(int count) {
        final BitSet main = r(2) == 0 ? new BitSet() : new BitSet(r(200));
        new Steps() {
            int kinds() {
                return 30;
            }

            String after() {
                return main.size() + " " + main.length() + " " + main.cardinality() + " " + main.hashCode() + " " + main;
            }

            private BitSet other() {
                BitSet other = new BitSet();
                int bits = r(20);
                for (int i = 0; i < bits; i++) {
                    other.set(r(range));
                }
                return other;
            }

            Object step(int op) {
                int at = r(20) == 0 ? -1 : r(range);
                int to = r(15) == 0 ? at - 1 : at + r(80);
                say(at);
                say(to);
                switch (op) {
                    case 0: case 1: case 2: case 3: main.set(at); return "set";
                    case 4: main.set(at, to); return "set";
                    case 5: main.set(at, r(2) == 0); return "set";
                    case 6: main.set(at, to, r(2) == 0); return "set";
                    case 7: main.clear(at); return "cleared";
                    case 8: main.clear(at, to); return "cleared";
                    case 9: if (r(20) == 0) { main.clear(); } return "cleared";
                    case 10: main.flip(at); return "flipped";
                    case 11: if (r(4) == 0) { main.flip(at, to); } return "flipped";
                    case 12: return main.get(at);
                    case 13: return main.get(at, to) + " " + main.get(Math.max(0, at), Math.max(0, at) + 10).size();
                    case 14: return main.nextSetBit(at);
                    case 15: return main.nextClearBit(at);
                    case 16: return main.previousSetBit(at);
                    case 17: return main.previousClearBit(at);
                    case 18: return main.isEmpty();
                    case 19: return main.intersects(other());
                    case 20: main.and(other()); return "and";
                    case 21: case 22: main.or(other()); return "or";
                    case 23: main.xor(other()); return "xor";
                    case 24: main.andNot(other()); return "and not";
                    case 25: return main.equals(main.clone()) + " " + main.equals(other()) + " " + ((BitSet) main.clone()).size();
                    case 26: return Arrays.toString(main.toLongArray()) + BitSet.valueOf(main.toLongArray());
                    case 27: return Arrays.toString(main.toByteArray()) + BitSet.valueOf(main.toByteArray());
                    default: return main.nextSetBit(0);
                }
            }
        }.calls(count);
    }

    private void arrays(int count) {
        new Steps() {
            int kinds() {
                return 30;
            }

            String after() {
                return "";
            }

            private Integer[] boxes() {
                Integer[] all = new Integer[r(r(5) == 0 ? 200 : 20)];
                for (int i = 0; i < all.length; i++) {
                    all[i] = r(range);
                }
                return all;
            }

            private int[] ints() {
                int[] all = new int[r(r(5) == 0 ? 200 : 20)];
                for (int i = 0; i < all.length; i++) {
                    all[i] = r(3) == 0 ? (int) state : r(range) - 3;
                }
                return all;
            }

            private long[] longs() {
                long[] all = new long[r(40)];
                for (int i = 0; i < all.length; i++) {
                    all[i] = r(3) == 0 ? state : r(range) - 3;
                }
                return all;
            }

            private char[] chars() {
                char[] all = new char[r(40)];
                for (int i = 0; i < all.length; i++) {
                    all[i] = (char) ('a' + r(26));
                }
                return all;
            }

            Object step(int op) {
                int from = r(20) - 1;
                int to = r(30) - 1;
                Integer[] boxes = boxes();
                int[] ints = ints();
                long[] longs = longs();
                char[] chars = chars();
                say(from);
                say(to);
                switch (op) {
                    case 0: Arrays.sort(ints); return Arrays.toString(ints);
                    case 1: Arrays.sort(longs); return Arrays.toString(longs);
                    case 2: Arrays.sort(chars); return Arrays.toString(chars);
                    case 3: Arrays.sort(boxes); return Arrays.toString(boxes);
                    case 4: Arrays.sort(boxes, order()); return Arrays.toString(boxes);
                    case 5: Arrays.sort(ints, from, to); return Arrays.toString(ints);
                    case 6: Arrays.sort(boxes, from, to); return Arrays.toString(boxes);
                    case 7: return Arrays.hashCode(ints) + " " + Arrays.hashCode(longs) + " " + Arrays.hashCode(boxes) + " " + Arrays.hashCode(chars);
                    case 8: return Arrays.toString(Arrays.copyOf(ints, from));
                    case 9: return Arrays.toString(Arrays.copyOf(boxes, to));
                    case 10: return Arrays.toString(Arrays.copyOfRange(ints, from, to));
                    case 11: return Arrays.toString(Arrays.copyOfRange(boxes, from, to));
                    case 12: return Arrays.toString(Arrays.copyOfRange(chars, from, to));
                    case 13: Arrays.fill(ints, from, to, 5); return Arrays.toString(ints);
                    case 14: Arrays.fill(boxes, 7); return Arrays.toString(boxes);
                    case 15: Arrays.sort(ints); return Arrays.binarySearch(ints, r(range));
                    case 16: Arrays.sort(boxes); return Arrays.binarySearch(boxes, r(range));
                    case 17: Arrays.sort(boxes, Collections.<Integer>reverseOrder()); return Arrays.binarySearch(boxes, r(range), Collections.<Integer>reverseOrder());
                    case 18: return Arrays.equals(ints, ints.clone()) + " " + Arrays.equals(ints, ints());
                    case 19: return Arrays.deepToString(new Object[] {ints, boxes, "x", new int[][] {ints}, chars, null});
                    case 20: return Arrays.deepHashCode(new Object[] {ints, boxes, "x", new int[][] {ints}, null});
                    case 21: return Arrays.deepEquals(new Object[] {ints, boxes}, new Object[] {ints.clone(), boxes.clone()});
                    case 22: List<Integer> view = Arrays.asList(boxes); Collections.sort(view); view.set(0, 9); return view + " " + view.indexOf(9) + view.hashCode();
                    case 23: Arrays.asList(boxes).add(4); return "added";
                    case 24: return Arrays.asList(boxes).remove((Object) r(range));
                    case 25: return Arrays.asList(boxes).subList(from, to) + " " + Arrays.asList(boxes).get(from);
                    case 26: return Arrays.asList(boxes).toArray(new Integer[r(30)]).length;
                    case 27: byte[] bytes = new byte[r(30)]; Arrays.fill(bytes, (byte) 3); return Arrays.toString(bytes) + Arrays.hashCode(bytes);
                    case 28: boolean[] flags = new boolean[r(9)]; Arrays.fill(flags, true); return Arrays.toString(flags) + Arrays.hashCode(flags);
                    default: return Arrays.asList(boxes).equals(new LinkedList<Integer>(Arrays.asList(boxes))) + " " + Arrays.asList(boxes).lastIndexOf(3);
                }
            }
        }.calls(count);
    }

    private void collections(int count) {
        new Steps() {
            int kinds() {
                return 36;
            }

            String after() {
                return "";
            }

            private List<Integer> numbers() {
                List<Integer> list = r(2) == 0 ? new ArrayList<Integer>() : new LinkedList<Integer>();
                int size = r(15);
                for (int i = 0; i < size; i++) {
                    list.add(r(range));
                }
                return list;
            }

            Object step(int op) {
                List<Integer> list = numbers();
                int number = r(range);
                switch (op) {
                    case 0: Collections.sort(list); return list;
                    case 1: Collections.sort(list, Collections.<Integer>reverseOrder()); return list;
                    case 2: Collections.sort(list); return Collections.binarySearch(list, number);
                    case 3: Collections.reverse(list); return list;
                    case 4: case 5: Collections.shuffle(list, new Random(number)); return list;
                    case 6: Collections.rotate(list, r(20) - 10); return list;
                    case 7: Collections.fill(list, number); return list;
                    case 8: return Collections.min(list);
                    case 9: return Collections.max(list);
                    case 10: return Collections.max(list, Collections.<Integer>reverseOrder());
                    case 11: return Collections.frequency(list, number);
                    case 12: return Collections.disjoint(list, numbers()) + " " + Collections.disjoint(new HashSet<Integer>(list), numbers());
                    case 13: Collections.addAll(list, 3, 4, number); return list;
                    case 14: return Collections.replaceAll(list, number, 5) + " " + list;
                    case 15: return Collections.indexOfSubList(list, numbers().subList(0, 1));
                    case 16: return Collections.lastIndexOfSubList(list, list.subList(1, 2));
                    case 17: return Collections.nCopies(r(8) - 1, number) + " " + Collections.nCopies(4, "x").hashCode();
                    case 18: Collections.copy(list, numbers()); return list;
                    case 19: Collections.swap(list, r(15), r(15)); return list;
                    case 20: return Collections.unmodifiableList(list).equals(list) + " " + Collections.unmodifiableList(list);
                    case 21: return Collections.unmodifiableList(list).add(3);
                    case 22: return Collections.unmodifiableMap(new TreeMap<Integer, Integer>(Collections.singletonMap(number, 3))).entrySet().iterator().next().setValue(2);
                    case 23: return Collections.unmodifiableSortedSet(new TreeSet<Integer>(list)).headSet(number) + " " + Collections.unmodifiableCollection(list);
                    case 24: return Collections.emptyList().equals(list) + " " + Collections.emptyList().hashCode() + Collections.emptyMap() + Collections.emptySet() + Collections.emptyIterator().hasNext();
                    case 25: return Collections.emptyList().remove(number);
                    case 26: return Collections.singletonList(number).get(r(2));
                    case 27: return Collections.singleton(number).remove((Object) r(range));
                    case 28: Set<Integer> set = Collections.newSetFromMap(new LinkedHashMap<Integer, Boolean>()); set.addAll(list); set.remove(number); return set + " " + set.hashCode();
                    case 29: return Collections.list(Collections.enumeration(list));
                    case 30: list.sort(Comparator.comparing(new Function<Integer, Integer>() {
                        public Integer apply(Integer n) {
                            return n % 3;
                        }
                    }).thenComparing(Comparator.<Integer>reverseOrder())); return list;
                    case 31: list.add(null); list.sort(Comparator.nullsFirst(Comparator.<Integer>naturalOrder()).reversed()); return list;
                    case 32: list.add(null); list.sort(Comparator.nullsLast(Comparator.<Integer>naturalOrder())); return list;
                    case 33: list.add(null); list.sort(null); return list;
                    case 34: return new TreeSet<Integer>(list).equals(new HashSet<Integer>(list)) + " " + Collections.emptyList().iterator().next();
                    default: return Collections.unmodifiableSet(new LinkedHashSet<Integer>(list)).toString() + Collections.unmodifiableList(list).listIterator(list.size()).previous();
                }
            }
        }.calls(count);
    }

    /** Collections that stay as they are. */
    private void fixed(int count) {
        new Steps() {
            int kinds() {
                return 30;
            }

            String after() {
                return "";
            }

            private List<Object> list() {
                switch (r(6)) {
                    case 0: return List.of();
                    case 1: return List.of(element());
                    case 2: return List.of(element(), element());
                    case 3: return List.of(element(), element(), element(), element());
                    case 4: return List.of(new Object[] {element(), element()});
                    default: return List.copyOf(some());
                }
            }

            private Set<Object> set() {
                switch (r(3)) {
                    case 0: return Set.of();
                    case 1: return Set.of(element());
                    default: return Set.of(element(), element(), element());
                }
            }

            private Map<Object, Object> map() {
                switch (r(3)) {
                    case 0: return Map.of();
                    case 1: return Map.of(element(), value());
                    default: return Map.of(element(), 1, element(), 2, element(), 3);
                }
            }

            Object step(int op) {
                List<Object> list = list();
                Set<Object> set = set();
                Map<Object, Object> map = map();
                int at = r(6) - 1;
                switch (op) {
                    case 0: return list + " " + list.hashCode();
                    case 1: return list.get(at);
                    case 2: return list.contains(element());
                    case 3: return list.indexOf(element());
                    case 4: return list.add(element());
                    case 5: return list.remove(element());
                    case 6: list.set(at, element()); return "set";
                    case 7: list.clear(); return "cleared";
                    case 8: return list.subList(at, r(5));
                    case 9: return list.listIterator(at).next();
                    case 10: return list.equals(new ArrayList<Object>(list));
                    case 11: list.iterator().remove(); return "removed";
                    case 12: list.sort(null); return "sorted";
                    case 13: return list.toArray();
                    case 14: return set.size() + " " + set.hashCode() + " " + set.contains(element());
                    case 15: return set.contains(null);
                    case 16: return set.add(element());
                    case 17: return set.equals(new HashSet<Object>(set)) + " " + new HashSet<Object>(set).equals(set) + new HashSet<Object>(set).containsAll(set);
                    case 18: return new TreeSet<Object>(set);
                    case 19: return set.size() < 2 ? set.toString() : "many";
                    case 20: return map.size() + " " + map.get(element()) + " " + map.containsKey(element()) + map.containsValue(2) + map.hashCode();
                    case 21: return map.get(null);
                    case 22: return map.put(element(), 1);
                    case 23: return map.equals(new HashMap<Object, Object>(map)) + " " + new HashMap<Object, Object>(map).equals(map);
                    case 24: return new TreeMap<Object, Object>(map);
                    case 25: return map.size() < 2 ? map + " " + map.keySet() + map.values() + map.entrySet() : "many";
                    case 26: return Map.entry(element(), 2) + " " + Map.entry(element(), 2).hashCode();
                    case 27: return map.getOrDefault(element(), 9);
                    case 28: return List.copyOf(set.size() < 2 ? set : list).equals(list);
                    default: return list.removeIf(test());
                }
            }
        }.calls(count);
    }

    /** Classes that are no collections. */
    private void others(int count) {
        final Random random = new Random(state);
        new Steps() {
            int kinds() {
                return 28;
            }

            String after() {
                return "";
            }

            private String text() {
                StringBuilder text = new StringBuilder();
                int length = r(14);
                for (int i = 0; i < length; i++) {
                    text.append(" ,;ab12-\n".charAt(r(9)));
                }
                return text.toString();
            }

            Object step(int op) {
                String text = text();
                Optional<Object> optional = Optional.ofNullable(r(3) == 0 ? null : element());
                switch (op) {
                    case 0: return random.nextInt();
                    case 1: case 2: return random.nextInt(r(2) == 0 ? 1 << r(30) : r(1 << 30));
                    case 3: return random.nextLong();
                    case 4: return random.nextBoolean();
                    case 5: byte[] bytes = new byte[r(11)]; random.nextBytes(bytes); return Arrays.toString(bytes);
                    case 6: return random.nextInt(-r(5), r(90));
                    case 7: case 8: {
                        StringTokenizer tokens = r(2) == 0 ? new StringTokenizer(text) : new StringTokenizer(text, ",;", r(2) == 0);
                        StringBuilder all = new StringBuilder().append(tokens.countTokens());
                        while (tokens.hasMoreTokens()) {
                            all.append('<').append(tokens.nextToken()).append('>').append(tokens.countTokens());
                        }
                        return all;
                    }
                    case 9: return new StringTokenizer(text).nextToken();
                    case 10: return new StringTokenizer(text).nextToken("a");
                    case 11: case 12: {
                        StringJoiner joiner = r(2) == 0 ? new StringJoiner("--") : new StringJoiner(", ", "[", "]");
                        if (r(2) == 0) {
                            joiner.setEmptyValue("none");
                        }
                        int parts = r(4);
                        for (int i = 0; i < parts; i++) {
                            joiner.add(text());
                        }
                        if (r(3) == 0) {
                            joiner.merge(new StringJoiner("+", "<", ">").add("x").add("y")).merge(joiner);
                        }
                        return joiner + " " + joiner.length();
                    }
                    case 13: return optional + " " + optional.isPresent() + (domain == 7 ? 0 : optional.hashCode()) + optional.orElse("other");
                    case 14: return optional.get();
                    case 15: return optional.map(new Function<Object, Object>() {
                        public Object apply(Object o) {
                            return r(3) == 0 ? null : o + "!";
                        }
                    }) + " " + optional.filter(test());
                    case 16: return OptionalInt.of(r(4)) + " " + OptionalInt.empty() + OptionalInt.of(3).equals(OptionalInt.of(r(5))) + OptionalInt.empty().getAsInt();
                    case 17: return Objects.hash(element(), 3, text) + " " + Objects.equals(element(), element()) + Objects.toString(null, "n");
                    case 18: return Objects.requireNonNull(r(2) == 0 ? null : element(), "message");
                    case 19: return Objects.checkIndex(r(4), r(4)) + Objects.checkFromToIndex(r(3), r(3), 3);
                    case 20: return scanned(text);
                    case 21: return scanned(r(1000) + " " + text + "\n" + r(100) + " x true\n");
                    default: return scanned(text + " " + text() + "\r\n" + text());
                }
            }

            private Object scanned(String text) {
                Scanner scanner = new Scanner(text);
                StringBuilder all = new StringBuilder();
                for (int i = 0; i < 8; i++) {
                    try {
                        switch (r(8)) {
                            case 0: all.append(scanner.nextLine()).append('|'); break;
                            case 1: all.append(scanner.next()).append('|'); break;
                            case 2: all.append(scanner.nextInt()).append('|'); break;
                            case 3: all.append(scanner.hasNextLine()); break;
                            case 4: all.append(scanner.hasNext()); break;
                            case 5: all.append(scanner.hasNextInt()); break;
                            case 6: all.append(scanner.nextBoolean()); break;
                            default: all.append(scanner.hasNextLong()); break;
                        }
                    } catch (RuntimeException e) {
                        all.append(named(e));
                    }
                }
                return all;
            }
        }.calls(count);
    }
}
