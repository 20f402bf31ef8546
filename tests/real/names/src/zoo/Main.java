package zoo;

import java.util.Arrays;
import java.util.EnumMap;
import java.util.Map;

/** Names of classes, enums, and the text that Object makes of a hash. */
public class Main {
    static boolean CAT;
    static boolean NEW;

    enum Kind {
        TAME, WILD {
            @Override
            String cry() {
                return "roar";
            }
        };

        String cry() {
            return "purr";
        }
    }

    interface Pet {
    }

    static class Told {
        @Override
        public int hashCode() {
            return 1;
        }

        @Override
        public String toString() {
            System.out.println("told");
            return "told";
        }
    }

    static class Animal {
        final int legs;

        Animal(int legs) {
            this.legs = legs;
        }

        @Override
        public int hashCode() {
            return 31 * legs + 250;
        }

        String kind() {
            return getClass().getSimpleName();
        }

        String above() {
            return super.toString();
        }
    }

    static class Cat extends Animal {
        Cat() {
            super(4);
        }

        @Override
        public boolean equals(Object o) {
            return o != null && o.getClass() == getClass();
        }
    }

    public static void main(String[] args) {
        Animal animal = CAT ? new Cat() : new Animal(2);
        System.out.println(animal + " " + animal.above() + " " + animal.kind() + " " + animal.getClass().getName());
        System.out.println(animal.equals(new Cat()) + " " + animal.getClass() + " " + Animal.class.isInstance(animal) + Cat.class.isInstance(animal));
        Object anonymous = new Animal(6) { };
        System.out.println(anonymous.getClass().getSimpleName().isEmpty() + anonymous.getClass().getName() + anonymous.getClass().getSuperclass());
        Kind kind = NEW ? Kind.valueOf("WILD") : Kind.TAME;
        System.out.println(kind.cry() + kind.getDeclaringClass().getSimpleName() + kind.getClass().getName() + kind.compareTo(Kind.WILD));
        System.out.println(Arrays.toString(Kind.class.getEnumConstants()) + Animal.class.isInterface() + Runnable.class.getName());
        try {
            Kind.valueOf(NEW ? "NONE" : "tame");
        } catch (IllegalArgumentException e) {
            System.out.println(e.getMessage());
        }
        Map<Kind, String> sounds = new EnumMap<>(Kind.class);
        for (Kind each : Kind.values()) {
            sounds.put(each, each.cry());
        }
        System.out.println(sounds);
        System.out.println(int[].class.getName() + String[].class.getSimpleName() + new int[0].getClass().getName() + "x".getClass());
        System.out.println(Cat.class.getCanonicalName() + " " + new IllegalStateException("y").getClass().getName());
        class Local {
        }
        System.out.println(Local.class.getCanonicalName() + Local.class.getSimpleName() + anonymous.getClass().getCanonicalName());
        System.out.println(Pet.class.getSuperclass() + " " + (Animal.class.getEnumConstants() == null) + (new Object().getClass() == Object.class));
        StringBuilder none = null;
        try {
            none.append(new Told());
        } catch (NullPointerException e) {
            System.out.println("no builder");
        }
        try {
            Object o = animal;
            Cat cat = Cat.class.cast(o);
            System.out.println("cast " + cat.legs);
        } catch (ClassCastException e) {
            System.out.println(e.getMessage());
        }
    }
}
