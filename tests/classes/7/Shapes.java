/** Switches in both forms, wide instructions, an enum, inner classes, lambdas, handlers, arrays of arrays. */
public class Shapes {
    enum Size { SMALL, MEDIUM, LARGE }

    interface Named {
        String name();
    }

    static final int LIMIT = 70000;
    static final long LARGEST = 1L << 40;
    static final String TITLE = "\u0000shapes \u20ac \ud83d\ude00";
    private static boolean option;

    class Inner implements Named {
        final int value;

        Inner(int value) {
            this.value = value;
        }

        public String name() {
            return TITLE + value;
        }
    }

    static int dense(int key) {
        switch (key) {
            case 1: return 10;
            case 2: return 20;
            case 3: return 30;
            default: return -1;
        }
    }

    static int sparse(int key) {
        switch (key) {
            case -1000000: return 1;
            case 7: return 2;
            case 1000000: return 3;
            default: return 0;
        }
    }

    static String sized(Size size) {
        switch (size) {
            case SMALL: return "s";
            case LARGE: return "l";
            default: return "m";
        }
    }

    static long wide(long first) {
        long l0 = first + 0;
        long l1 = first + 1;
        long l2 = first + 2;
        long l3 = first + 3;
        long l4 = first + 4;
        long l5 = first + 5;
        long l6 = first + 6;
        long l7 = first + 7;
        long l8 = first + 8;
        long l9 = first + 9;
        long l10 = first + 10;
        long l11 = first + 11;
        long l12 = first + 12;
        long l13 = first + 13;
        long l14 = first + 14;
        long l15 = first + 15;
        long l16 = first + 16;
        long l17 = first + 17;
        long l18 = first + 18;
        long l19 = first + 19;
        long l20 = first + 20;
        long l21 = first + 21;
        long l22 = first + 22;
        long l23 = first + 23;
        long l24 = first + 24;
        long l25 = first + 25;
        long l26 = first + 26;
        long l27 = first + 27;
        long l28 = first + 28;
        long l29 = first + 29;
        long l30 = first + 30;
        long l31 = first + 31;
        long l32 = first + 32;
        long l33 = first + 33;
        long l34 = first + 34;
        long l35 = first + 35;
        long l36 = first + 36;
        long l37 = first + 37;
        long l38 = first + 38;
        long l39 = first + 39;
        long l40 = first + 40;
        long l41 = first + 41;
        long l42 = first + 42;
        long l43 = first + 43;
        long l44 = first + 44;
        long l45 = first + 45;
        long l46 = first + 46;
        long l47 = first + 47;
        long l48 = first + 48;
        long l49 = first + 49;
        long l50 = first + 50;
        long l51 = first + 51;
        long l52 = first + 52;
        long l53 = first + 53;
        long l54 = first + 54;
        long l55 = first + 55;
        long l56 = first + 56;
        long l57 = first + 57;
        long l58 = first + 58;
        long l59 = first + 59;
        long l60 = first + 60;
        long l61 = first + 61;
        long l62 = first + 62;
        long l63 = first + 63;
        long l64 = first + 64;
        long l65 = first + 65;
        long l66 = first + 66;
        long l67 = first + 67;
        long l68 = first + 68;
        long l69 = first + 69;
        long l70 = first + 70;
        long l71 = first + 71;
        long l72 = first + 72;
        long l73 = first + 73;
        long l74 = first + 74;
        long l75 = first + 75;
        long l76 = first + 76;
        long l77 = first + 77;
        long l78 = first + 78;
        long l79 = first + 79;
        long l80 = first + 80;
        long l81 = first + 81;
        long l82 = first + 82;
        long l83 = first + 83;
        long l84 = first + 84;
        long l85 = first + 85;
        long l86 = first + 86;
        long l87 = first + 87;
        long l88 = first + 88;
        long l89 = first + 89;
        long l90 = first + 90;
        long l91 = first + 91;
        long l92 = first + 92;
        long l93 = first + 93;
        long l94 = first + 94;
        long l95 = first + 95;
        long l96 = first + 96;
        long l97 = first + 97;
        long l98 = first + 98;
        long l99 = first + 99;
        long l100 = first + 100;
        long l101 = first + 101;
        long l102 = first + 102;
        long l103 = first + 103;
        long l104 = first + 104;
        long l105 = first + 105;
        long l106 = first + 106;
        long l107 = first + 107;
        long l108 = first + 108;
        long l109 = first + 109;
        long l110 = first + 110;
        long l111 = first + 111;
        long l112 = first + 112;
        long l113 = first + 113;
        long l114 = first + 114;
        long l115 = first + 115;
        long l116 = first + 116;
        long l117 = first + 117;
        long l118 = first + 118;
        long l119 = first + 119;
        long l120 = first + 120;
        long l121 = first + 121;
        long l122 = first + 122;
        long l123 = first + 123;
        long l124 = first + 124;
        long l125 = first + 125;
        long l126 = first + 126;
        long l127 = first + 127;
        long l128 = first + 128;
        long l129 = first + 129;
        int last = 1;
        long total = 0;
        total += l0;
        total += l1;
        total += l2;
        total += l3;
        total += l4;
        total += l5;
        total += l6;
        total += l7;
        total += l8;
        total += l9;
        total += l10;
        total += l11;
        total += l12;
        total += l13;
        total += l14;
        total += l15;
        total += l16;
        total += l17;
        total += l18;
        total += l19;
        total += l20;
        total += l21;
        total += l22;
        total += l23;
        total += l24;
        total += l25;
        total += l26;
        total += l27;
        total += l28;
        total += l29;
        total += l30;
        total += l31;
        total += l32;
        total += l33;
        total += l34;
        total += l35;
        total += l36;
        total += l37;
        total += l38;
        total += l39;
        total += l40;
        total += l41;
        total += l42;
        total += l43;
        total += l44;
        total += l45;
        total += l46;
        total += l47;
        total += l48;
        total += l49;
        total += l50;
        total += l51;
        total += l52;
        total += l53;
        total += l54;
        total += l55;
        total += l56;
        total += l57;
        total += l58;
        total += l59;
        total += l60;
        total += l61;
        total += l62;
        total += l63;
        total += l64;
        total += l65;
        total += l66;
        total += l67;
        total += l68;
        total += l69;
        total += l70;
        total += l71;
        total += l72;
        total += l73;
        total += l74;
        total += l75;
        total += l76;
        total += l77;
        total += l78;
        total += l79;
        total += l80;
        total += l81;
        total += l82;
        total += l83;
        total += l84;
        total += l85;
        total += l86;
        total += l87;
        total += l88;
        total += l89;
        total += l90;
        total += l91;
        total += l92;
        total += l93;
        total += l94;
        total += l95;
        total += l96;
        total += l97;
        total += l98;
        total += l99;
        total += l100;
        total += l101;
        total += l102;
        total += l103;
        total += l104;
        total += l105;
        total += l106;
        total += l107;
        total += l108;
        total += l109;
        total += l110;
        total += l111;
        total += l112;
        total += l113;
        total += l114;
        total += l115;
        total += l116;
        total += l117;
        total += l118;
        total += l119;
        total += l120;
        total += l121;
        total += l122;
        total += l123;
        total += l124;
        total += l125;
        total += l126;
        total += l127;
        total += l128;
        total += l129;
        last += 1000;
        total += last;
        return total;
    }

    static int caught(int[] values, int index) {
        try {
            return values[index];
        } catch (ArrayIndexOutOfBoundsException e) {
            return -1;
        } finally {
            option = !option;
        }
    }

    static Object arrays(int rows) {
        long[][][] cube = new long[rows][2][];
        String[][] names = new String[rows][];
        synchronized (cube) {
            return rows > 1 ? (Object) cube : names;
        }
    }

    public static void main(String[] arguments) {
        System.out.println(dense(2) + sparse(7) + caught(new int[2], 5));
        System.out.println(sized(Size.LARGE) + wide(3) + LIMIT + LARGEST);
        Named made = new Shapes().new Inner(4);
        System.out.println(made.name() + arrays(2).getClass());
        System.out.println(arguments.length);
    }
}
