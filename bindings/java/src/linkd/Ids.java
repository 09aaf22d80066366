package linkd;

/** What the numbers of a linker have in common. */
final class Ids {
    /** How many there are at most of each kind. */
    static final int MOST = 1_048_576;

    private Ids() {
    }

    static void check(int number) {
        if (number < 0 || number >= MOST) {
            throw new IllegalArgumentException("no number of a linker: " + number);
        }
    }
}
