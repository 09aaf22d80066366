/** A call whose method is chosen while the program runs: javac writes an invokedynamic for the lambda, and a host says what it runs. */
final class Chosen {
    private Chosen() {
    }

    /** By invokedynamic. */
    static Measured chosen() {
        return () -> 1;
    }

    static Measured small() {
        return new Square(1);
    }

    static Measured large() {
        return new Circle(2);
    }
}
