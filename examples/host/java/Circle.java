public class Circle extends Shape {
    private final int radius;

    Circle(int radius) {
        this.radius = radius;
    }

    @Override
    public int area() {
        return 3 * radius * radius;
    }
}
