public class Main {
    static boolean EXACT;
    static boolean COLOUR;
    static boolean RECTANGLE;

    static class Rectangle implements Shape {
        private final int width;
        private final int height;

        Rectangle(int width, int height) {
            this.width = width;
            this.height = height;
        }

        public int area() {
            return width * height;
        }

        public String name() {
            return "rectangle";
        }

        public int doubled() {
            return Shape.super.doubled() + 1;
        }
    }

    public static void main(String[] arguments) {
        Shape[] shapes = {
            new Square(3), new Tile(4), RECTANGLE ? new Rectangle(2, 9) : new Square(5)
        };
        Shape largest = shapes[0];
        for (Shape shape : shapes) {
            System.out.println(shape.text());
            largest = Shape.larger(largest, shape);
        }
        System.out.println(largest.name());
        System.out.println(shapes[2] instanceof Square);
    }
}
