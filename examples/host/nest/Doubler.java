import java.util.function.IntUnaryOperator;

/** A lambda in a class that is alone in its nest. */
final class Doubler {
    private Doubler() {}

    static IntUnaryOperator doubler() {
        return x -> x + x;
    }
}
