package java.util;

/** A sorted map that hands out its keys in both directions. */
interface Keyed<K> {
    Iterator<K> varexjKeys(boolean down);
}
