class Square implements Shape {
    protected final int side;

    Square(int side) {
        this.side = side;
    }

    public int area() {
        return side * side;
    }

    public String name() {
        return "square";
    }
}
