/** Calls of each kind but invokedynamic. */
final class Main {
    private Main() {
    }

    /** By invokeinterface. */
    static int area(Measured measured) {
        return measured.area();
    }

    /** By invokevirtual: one method runs until there is a Triangle. */
    static int doubled(Shape shape) {
        return shape.doubled();
    }

    /** By invokevirtual, and whatever is defined beside Circle, one method runs. */
    static int round(Circle circle) {
        return circle.area();
    }

    /** By invokestatic, and invokespecial of a constructor that isn't there until there is a Triangle. */
    static int late() {
        Triangle triangle = new Triangle(3, 5);
        return area(triangle) + doubled(triangle);
    }

    /** Throws where a sum is wrong; an error of a name would be one more class to define. */
    public static void main(String[] words) {
        int sum = round(new Circle(2)) + area(new Square(3)) + doubled(new Square(1)) + late();
        if (sum != 12 + 9 + 4 + 7 + 30) {
            throw null;
        }
    }
}
