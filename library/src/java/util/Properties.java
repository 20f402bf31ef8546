package java.util;

import java.io.PrintStream;
import java.util.function.BiConsumer;
import java.util.function.BiFunction;
import java.util.function.Function;

/** Texts by names, with others behind them. Reading and writing of files is left out. */
public class Properties extends Hashtable<Object, Object> {
    protected volatile Properties defaults;

    private PropertyTable map;

    public Properties() {
        this(null, 8);
    }

    public Properties(int initialCapacity) {
        this(null, initialCapacity);
    }

    public Properties(Properties defaults) {
        this(defaults, 8);
    }

    private Properties(Properties defaults, int initialCapacity) {
        map = new PropertyTable(initialCapacity);
        this.defaults = defaults;
    }

    public Object setProperty(String key, String value) {
        return put(key, value);
    }

    public String getProperty(String key) {
        Object value = map.get(key);
        if (value instanceof String) {
            return (String) value;
        }
        return defaults == null ? null : defaults.getProperty(key);
    }

    public String getProperty(String key, String defaultValue) {
        String value = getProperty(key);
        return value == null ? defaultValue : value;
    }

    public Enumeration<?> propertyNames() {
        Hashtable<String, Object> all = new Hashtable<String, Object>();
        collect(all);
        return all.keys();
    }

    private void collect(Map<String, Object> all) {
        if (defaults != null) {
            defaults.collect(all);
        }
        for (Iterator<Map.Entry<Object, Object>> it = map.entrySet().iterator(); it.hasNext();) {
            Map.Entry<Object, Object> entry = it.next();
            all.put((String) entry.getKey(), entry.getValue());
        }
    }

    public Set<String> stringPropertyNames() {
        Map<String, String> all = new HashMap<String, String>();
        collectTexts(all);
        return Collections.unmodifiableSet(all.keySet());
    }

    private void collectTexts(Map<String, String> all) {
        if (defaults != null) {
            defaults.collectTexts(all);
        }
        for (Iterator<Map.Entry<Object, Object>> it = map.entrySet().iterator(); it.hasNext();) {
            Map.Entry<Object, Object> entry = it.next();
            if (entry.getKey() instanceof String && entry.getValue() instanceof String) {
                all.put((String) entry.getKey(), (String) entry.getValue());
            }
        }
    }

    public void list(PrintStream out) {
        out.println("-- listing properties --");
        Map<String, Object> all = new HashMap<String, Object>();
        collect(all);
        for (Iterator<Map.Entry<String, Object>> it = all.entrySet().iterator(); it.hasNext();) {
            Map.Entry<String, Object> entry = it.next();
            String value = (String) entry.getValue();
            if (value.length() > 40) {
                value = value.substring(0, 37).concat("...");
            }
            out.println(entry.getKey() + "=" + value);
        }
    }

    public int size() {
        return map.size();
    }

    public boolean isEmpty() {
        return map.isEmpty();
    }

    public Enumeration<Object> keys() {
        return Collections.enumeration(map.keySet());
    }

    public Enumeration<Object> elements() {
        return Collections.enumeration(map.values());
    }

    public boolean contains(Object value) {
        return map.containsValue(value);
    }

    public boolean containsValue(Object value) {
        return map.containsValue(value);
    }

    public boolean containsKey(Object key) {
        return map.containsKey(key);
    }

    public Object get(Object key) {
        return map.get(key);
    }

    public Object put(Object key, Object value) {
        return map.put(key, value);
    }

    public Object remove(Object key) {
        return map.remove(key);
    }

    public void putAll(Map<?, ?> t) {
        map.putAll(t);
    }

    public void clear() {
        map.clear();
    }

    public String toString() {
        return map.toString();
    }

    public Set<Object> keySet() {
        return map.keySet();
    }

    public Collection<Object> values() {
        return map.values();
    }

    public Set<Map.Entry<Object, Object>> entrySet() {
        return map.entrySet();
    }

    public boolean equals(Object o) {
        return o == this || map.equals(o);
    }

    public int hashCode() {
        return map.hashCode();
    }

    public Object getOrDefault(Object key, Object defaultValue) {
        Object value = map.get(key);
        return value == null ? defaultValue : value;
    }

    public void forEach(BiConsumer<? super Object, ? super Object> action) {
        map.forEach(action);
    }

    public void replaceAll(BiFunction<? super Object, ? super Object, ?> function) {
        map.replaceAll(function);
    }

    public Object putIfAbsent(Object key, Object value) {
        if (value == null) {
            throw new NullPointerException();
        }
        return map.putIfAbsent(key, value);
    }

    public boolean remove(Object key, Object value) {
        if (key == null) {
            throw new NullPointerException();
        }
        return value != null && map.remove(key, value);
    }

    public boolean replace(Object key, Object oldValue, Object newValue) {
        if (key == null || oldValue == null || newValue == null) {
            throw new NullPointerException();
        }
        return map.replace(key, oldValue, newValue);
    }

    public Object replace(Object key, Object value) {
        if (key == null || value == null) {
            throw new NullPointerException();
        }
        return map.replace(key, value);
    }

    public Object computeIfAbsent(Object key, Function<? super Object, ?> mappingFunction) {
        if (key == null) {
            throw new NullPointerException();
        }
        return map.computeIfAbsent(key, mappingFunction);
    }

    public Object computeIfPresent(Object key, BiFunction<? super Object, ? super Object, ?> remappingFunction) {
        if (key == null) {
            throw new NullPointerException();
        }
        return map.computeIfPresent(key, remappingFunction);
    }

    public Object compute(Object key, BiFunction<? super Object, ? super Object, ?> remappingFunction) {
        if (key == null) {
            throw new NullPointerException();
        }
        return map.compute(key, remappingFunction);
    }

    public Object merge(Object key, Object value, BiFunction<? super Object, ? super Object, ?> remappingFunction) {
        if (key == null) {
            throw new NullPointerException();
        }
        return map.merge(key, value, remappingFunction);
    }

    protected void rehash() {
    }

    /** Properties of their own with the same names and values; of this class, also where these are of a class below. */
    public Object clone() {
        Properties copy = new Properties(defaults, 8);
        copy.map = new PropertyTable(map);
        return copy;
    }
}
