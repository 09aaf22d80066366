/**
 * A program that has to differ: the linker's agent sees the class file of Below before Renaming changes it, so that the machine runs the
 * method of Above, and the linker says that of Below.
 */
final class Changed {
    private Changed() {
    }

    static class Above {
        int told() {
            return 1;
        }
    }

    static final class Below extends Above {
        @Override
        int told() {
            return 2;
        }
    }

    static int told(Above above) {
        return above.told();
    }

    /** Ends with status 0 where the method of Above was run. */
    public static void main(String[] words) {
        System.exit(told(new Below()) == 1 ? 0 : 1);
    }
}
