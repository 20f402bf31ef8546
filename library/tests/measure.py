"""Measures the library on a built program: what collections under options cost in rounds and seconds, and what their operations cost in attempts.

    python3 measure.py VAREXJ [OPTIONS..]

Wants javac of a release that still compiles for Java 8. For each row a program is made, compiled, given what it comes to of the library, and run: with each number
of options (8, 12 and 16 where none is said), all configurations together.
"""

import os
import resource
import subprocess
import sys
import tempfile

WITH = os.environ.get('LIBRARY_WITH', os.path.join(os.path.dirname(os.path.abspath(__file__)), '..', 'with'))

# By name: what stands before, under each option n, and behind.
SHARED = {
    'add to an ArrayList': ('List<Integer> c = new ArrayList<Integer>();', 'c.add({n});', ''),
    'add to a LinkedList': ('List<Integer> c = new LinkedList<Integer>();', 'c.add({n});', ''),
    'then iterate, ArrayList': ('List<Integer> c = new ArrayList<Integer>();', 'c.add({n});', 'for (Integer i : c) {{ sum = (sum + i) % 4; }}'),
    'then iterate, LinkedList': ('List<Integer> c = new LinkedList<Integer>();', 'c.add({n});', 'for (Integer i : c) {{ sum = (sum + i) % 4; }}'),
    'then get(i), ArrayList': ('List<Integer> c = new ArrayList<Integer>();', 'c.add({n});', 'for (int i = 0; i < c.size(); i++) {{ sum = (sum + c.get(i)) % 4; }}'),
    'sort five and those under options': ('List<Integer> c = new ArrayList<Integer>(); for (int i = 0; i < 5; i++) {{ c.add(i * 7 % 5 * 4); }}', 'c.add({n} * 5 % 11);', 'Collections.sort(c); sum = c.get(2) % 4;'),
    'put into a HashMap': ('Map<Integer, Integer> c = new HashMap<Integer, Integer>();', 'c.put({n} * 37 % 101, {n});', ''),
    'then iterate, HashMap': ('Map<Integer, Integer> c = new HashMap<Integer, Integer>();', 'c.put({n} * 37 % 101, {n});', 'for (Map.Entry<Integer, Integer> e : c.entrySet()) {{ sum = (sum + e.getValue()) % 4; }}'),
    'keys all there, values under options': ('Map<Integer, Integer> c = new HashMap<Integer, Integer>(); for (int i = 0; i < {count}; i++) {{ c.put(i, 0); }}', 'c.put({n}, 3);', 'for (int i = 0; i < {count}; i++) {{ sum = (sum + c.get(i)) % 4; }}'),
    'put into a LinkedHashMap, iterate': ('Map<Integer, Integer> c = new LinkedHashMap<Integer, Integer>();', 'c.put({n} * 37 % 101, {n});', 'for (Map.Entry<Integer, Integer> e : c.entrySet()) {{ sum = (sum + e.getValue()) % 4; }}'),
    'put into a TreeMap': ('Map<Integer, Integer> c = new TreeMap<Integer, Integer>();', 'c.put({n} * 37 % 101, {n});', ''),
    'then iterate, TreeMap': ('Map<Integer, Integer> c = new TreeMap<Integer, Integer>();', 'c.put({n} * 37 % 101, {n});', 'for (Map.Entry<Integer, Integer> e : c.entrySet()) {{ sum = (sum + e.getValue()) % 4; }}'),
    'set bits of a BitSet, cardinality': ('BitSet c = new BitSet();', 'c.set({n});', 'sum = c.cardinality() % 4;'),
    'add to a PriorityQueue, poll all': ('PriorityQueue<Integer> c = new PriorityQueue<Integer>();', 'c.add({n} * 5 % 11);', 'while (!c.isEmpty()) {{ sum = (sum + c.poll()) % 4; }}'),
}

# By name: what stands before, and what is done for each i.
OPERATIONS = {
    'nothing': ('', ''),
    'ArrayList.add': ('List<Integer> c = new ArrayList<Integer>(4096);', 'c.add(i);'),
    'ArrayList.get': ('List<Integer> c = new ArrayList<Integer>(); c.add(3);', 'c.get(0);'),
    'LinkedList.add': ('List<Integer> c = new LinkedList<Integer>();', 'c.add(i);'),
    'ArrayDeque.add and poll': ('Deque<Integer> c = new ArrayDeque<Integer>();', 'c.add(i); c.poll();'),
    'HashMap.get of a text': ('Map<String, Integer> c = new HashMap<String, Integer>(); c.put("key", 1); c.put("other", 2);', 'c.get("key");'),
    'HashMap.put of a new Integer': ('Map<Integer, Integer> c = new HashMap<Integer, Integer>();', 'c.put(i, i);'),
    'HashMap.put of a key that is there': ('Map<Integer, Integer> c = new HashMap<Integer, Integer>(); c.put(3, 1);', 'c.put(3, i);'),
    'HashSet.add of a text that is there': ('Set<String> c = new HashSet<String>(); c.add("key");', 'c.add("key");'),
    'LinkedHashMap.put of a new Integer': ('Map<Integer, Integer> c = new LinkedHashMap<Integer, Integer>();', 'c.put(i, i);'),
    'TreeMap.put of a new Integer': ('Map<Integer, Integer> c = new TreeMap<Integer, Integer>();', 'c.put(i * 37 % 1009, i);'),
    'TreeMap.get among 64': ('Map<Integer, Integer> c = new TreeMap<Integer, Integer>(); for (int k = 0; k < 64; k++) { c.put(k, k); }', 'c.get(i % 64);'),
    'PriorityQueue.add and poll among 64': ('PriorityQueue<Integer> c = new PriorityQueue<Integer>(); for (int k = 0; k < 64; k++) { c.add(k * 37 % 64); }', 'c.add(i * 5 % 64); c.poll();'),
}
WALKS = {
    'ArrayList': 'List<Integer> c = new ArrayList<Integer>();',
    'LinkedList': 'List<Integer> c = new LinkedList<Integer>();',
    'HashSet': 'Set<Integer> c = new HashSet<Integer>();',
    'LinkedHashSet': 'Set<Integer> c = new LinkedHashSet<Integer>();',
    'TreeSet': 'Set<Integer> c = new TreeSet<Integer>();',
}


def run(varexj, body, options):
    """The rounds, the seconds of a processor and the greatest number of attempts of a program with so many options."""
    with tempfile.TemporaryDirectory() as room:
        fields = ''.join(f'static boolean O{n};\n' for n in range(options))
        with open(os.path.join(room, 'Main.java'), 'w') as file:
            file.write(f'import java.util.*;\npublic class Main {{\n{fields}public static void main(String[] words) {{\nint sum = 0;\n{body}\nSystem.out.println(sum);\n}}\n}}\n')
        with open(os.path.join(room, 'model'), 'w') as file:
            file.writelines(f'option O{n} Main O{n}\n' for n in range(options))
        classes = os.path.join(room, 'classes')
        subprocess.run(['javac', '--release', '8', '-g:lines', '-Xlint:-options', '-nowarn', '-d', classes, os.path.join(room, 'Main.java')], check=True)
        subprocess.run([sys.executable, WITH, classes], check=True, stdout=subprocess.DEVNULL)
        before = resource.getrusage(resource.RUSAGE_CHILDREN).ru_utime
        done = subprocess.run([varexj, 'run', classes, os.path.join(room, 'model'), 'Main', '100000000'], check=True, capture_output=True, text=True)
        seconds = resource.getrusage(resource.RUSAGE_CHILDREN).ru_utime - before
    lines = [line.split() for line in done.stdout.splitlines()]
    if any(line[0] == 'end' and line[2] != 'return' for line in lines):
        raise SystemExit(f'ends otherwise: {[line for line in lines if line[0] == "end"]}')
    return int(next(line[1] for line in lines if line[0] == 'rounds')), seconds, max(int(line[2]) for line in lines if line[0] == 'attempts')


def shared(varexj, counts):
    for name, (before, under, behind) in SHARED.items():
        cells = []
        for count in counts:
            body = '\n'.join([before.format(count=count)] + [f'if (O{n}) {{ {under.format(n=n)} }}' for n in range(count)] + [behind.format(count=count)])
            rounds, seconds, _ = run(varexj, body, count)
            cells.append(f'{rounds:,}, {seconds:.2f} s')
        print(f'| {name} | {" | ".join(cells)} |', flush=True)


def attempts(varexj, before, each, few, many):
    counts = [run(varexj, f'{before}\nfor (int i = 0; i < {count}; i++) {{ {each} }}', 1)[2] for count in (few, many)]
    return (counts[1] - counts[0]) / (many - few)


def operations(varexj):
    nothing = attempts(varexj, *OPERATIONS['nothing'], 100, 600)
    for name, (before, each) in OPERATIONS.items():
        if each:
            print(f'| {name} | {attempts(varexj, before, each, 100, 600) - nothing:.0f} |', flush=True)
    for name, before in WALKS.items():
        fill = 'for (int i = 0; i < 100; i++) { c.add(i); }'
        walked = run(varexj, before + fill + 'for (Integer e : c) { sum = e; }', 1)[2] - run(varexj, before + fill, 1)[2]
        print(f'| a step of for-each over 100, {name} | {walked / 100:.0f} |', flush=True)
    sort = 'List<Integer> c = new ArrayList<Integer>(); for (int i = 0; i < 1024; i++) { c.add(i * 389 % 1024); }'
    print(f'| sort 1,024 Integers | {run(varexj, sort + "Collections.sort(c);", 1)[2] - run(varexj, sort, 1)[2]:,} |')
    array = 'int[] c = new int[1024]; for (int i = 0; i < 1024; i++) { c[i] = i * 389 % 1024; }'
    print(f'| sort 1,024 ints | {run(varexj, array + "Arrays.sort(c);", 1)[2] - run(varexj, array, 1)[2]:,} |')


def main(words):
    if not words:
        sys.exit(__doc__)
    shared(os.path.abspath(words[0]), [int(word) for word in words[1:]] or [8, 12, 16])
    operations(os.path.abspath(words[0]))


main(sys.argv[1:])
