/** Ten classes that each of many loaders defines by the same names. They are made by their places. */
public final class Parts {
    private Parts() {
    }

    public abstract static class Base implements Step {
        /** The loader's number makes the classes of one differ from those of another. */
        final int by = getClass().getClassLoader().hashCode() & 7;

        @Override
        public int next(int number) {
            return number + by;
        }
    }

    public static class Part0 extends Base {
    }

    public static class Part1 extends Part0 {
        @Override
        public int next(int number) {
            return super.next(number) + 1;
        }
    }

    public static class Part2 extends Part0 {
        @Override
        public int twice(int number) {
            return next(number) + 2;
        }
    }

    public static class Part3 extends Part2 {
        @Override
        public int next(int number) {
            return number ^ 3;
        }
    }

    public static class Part4 implements Step {
        @Override
        public int next(int number) {
            return new Part3().next(number) + 4;
        }
    }

    public static class Part5 extends Part4 {
        @Override
        public int twice(int number) {
            return super.twice(number) + 5;
        }
    }

    public static class Part6 extends Part5 {
        private int own(int number) {
            return number - 6;
        }

        @Override
        public int next(int number) {
            return own(number);
        }
    }

    public static class Part7 extends Part1 {
        static int fixed(int number) {
            return number + 7;
        }

        @Override
        public int next(int number) {
            return fixed(super.next(number));
        }
    }

    public static final class Part8 extends Part7 {
        @Override
        public int twice(int number) {
            Step other = new Part6();
            return other.twice(number);
        }
    }
}
