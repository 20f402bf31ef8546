package java.util;

/** Marks lists whose elements are found by their places at once. */
public interface RandomAccess {
}
