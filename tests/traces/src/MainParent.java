/** The initialiser of the superclass of the main class fails, while the main class waits for it. */
class MainParent extends Parent {
    static int own = 1;

    public static void main(String[] words) {
        System.out.println(own);
    }
}

class Parent {
    static int cells = new int[2].length / (own() - 2);

    static int own() {
        return 2;
    }
}
