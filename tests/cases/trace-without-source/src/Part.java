/** Compiled with the name of its source, and without lines. */
class Part {
    static int of(int all, int parts) {
        return all / parts;
    }
}
