/** The options, each of which adds a weight to the seed. The model sets them. */
class Options {
    static boolean O1, O2, O3, O4, O5, O6, O7, O8, O9, O10, O11, O12;

    /** A sum that is another one in each configuration. */
    static int sum() {
        int sum = 1;
        if (O1) sum += 1;
        if (O2) sum += 2;
        if (O3) sum += 4;
        if (O4) sum += 8;
        if (O5) sum += 16;
        if (O6) sum += 32;
        if (O7) sum += 64;
        if (O8) sum += 128;
        if (O9) sum += 256;
        if (O10) sum += 512;
        if (O11) sum += 1024;
        if (O12) sum += 2048;
        return sum;
    }
}
