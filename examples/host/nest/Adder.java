import java.util.function.IntUnaryOperator;

/** A lambda's body is a private method of the class that it stands in. Here is one in a nest host, and one in a member of its nest. */
final class Adder {
    private Adder() {}

    static IntUnaryOperator one() {
        return x -> x + 1;
    }

    static final class Twice {
        private Twice() {}

        static IntUnaryOperator two() {
            return x -> x + 2;
        }
    }
}
