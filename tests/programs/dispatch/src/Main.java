/** Which method a call takes: by class, above it, private, static, through interfaces and bridges, and while constructors still run. */
public class Main {
    static boolean SUBCLASS;
    static boolean OVERRIDE;
    static boolean CAST;

    interface Named {
        Object name();
    }

    static class Animal implements Named, Comparable<Animal> {
        protected String sound = "none";

        Animal() {
            System.out.println("made " + describe());
        }

        private String secret() {
            return "animal's";
        }

        static String kind() {
            return "animals";
        }

        String describe() {
            return name() + ":" + sound;
        }

        String tell() {
            return secret() + " " + kind();
        }

        public Object name() {
            return "animal";
        }

        public int compareTo(Animal other) {
            return describe().compareTo(other.describe());
        }
    }

    static class Dog extends Animal {
        protected String sound = "bark";

        private String secret() {
            return "dog's";
        }

        static String kind() {
            return "dogs";
        }

        @Override
        String describe() {
            return OVERRIDE ? "dog " + super.describe() + "/" + sound : super.describe();
        }

        @Override
        public String name() {
            return "dog";
        }
    }

    static final class Puppy extends Dog {
        @Override
        public String name() {
            return "puppy of " + super.name();
        }

        @Override
        public int compareTo(Animal other) {
            return -super.compareTo(other);
        }

        @Override
        public boolean equals(Object other) {
            return other instanceof Puppy;
        }

        @Override
        public int hashCode() {
            return 7;
        }
    }

    static String overload(Object value) {
        return "object";
    }

    static String overload(String value) {
        return "string";
    }

    static String overload(int value) {
        return "int";
    }

    static String overload(long value) {
        return "long";
    }

    public static void main(String[] arguments) {
        Animal animal = SUBCLASS ? new Puppy() : new Dog();
        System.out.println(animal.describe());
        System.out.println(animal.tell());
        System.out.println(animal.sound + " " + ((Dog) animal).sound);
        Named named = animal;
        System.out.println(named.name());
        Comparable<Animal> comparable = animal;
        System.out.println(comparable.compareTo(new Animal()) > 0);
        System.out.println(animal.equals(new Puppy()));
        Object text = "text";
        System.out.println(overload(text) + overload("text") + overload('c') + overload(1L));
        Object thing = CAST ? animal : text;
        try {
            System.out.println(((String) thing).length());
        } catch (ClassCastException e) {
            System.out.println("no string");
        }
        Animal none = CAST && OVERRIDE ? null : animal;
        System.out.println(none.name());
    }
}
