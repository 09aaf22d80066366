import java.util.*;

/** Records, enums, sealed and functional interfaces, inner classes, nest mates, switches, exceptions. */
public class Language {
    static class Outer {
        private int secret = 42;
        private int peek() { return secret; }
        class Inner {
            private int x = secret + 1;
            private int get() { return peek() + x; }
        }
        static class Nested { private static String hidden() { return "nested"; } }
    }
    enum Op {
        ADD("+") { int apply(int a, int b) { return a + b; } },
        MUL("*") { int apply(int a, int b) { return a * b; } };
        final String sign;
        Op(String sign) { this.sign = sign; }
        abstract int apply(int a, int b);
    }
    interface A { default String hi() { return "A"; } }
    interface B { default String hi() { return "B"; } }
    static class AB implements A, B { public String hi() { return A.super.hi() + B.super.hi(); } }
    record Point(int x, long y, String name, double d) {
        Point { if (x < 0) throw new IllegalArgumentException("negative"); }
        Point(int x) { this(x, 2L * x, "p" + x, x / 2.0); }
        static Point origin() { return new Point(0); }
        int sum() { return x + (int) y; }
    }
    sealed interface Expr permits Num, Add, Neg {}
    record Num(int value) implements Expr {}
    record Add(Expr left, Expr right) implements Expr {}
    record Neg(Expr inner) implements Expr {}
    static int eval(Expr e) {
        if (e instanceof Num n) return n.value();
        if (e instanceof Add a) return eval(a.left()) + eval(a.right());
        if (e instanceof Neg n) return -eval(n.inner());
        throw new AssertionError();
    }
    static <T extends Comparable<T>> T largest(List<? extends T> list) {
        T best = null;
        for (T one : list) if (best == null || one.compareTo(best) > 0) best = one;
        return best;
    }
    static String day(String name) {
        switch (name) {
            case "mon": case "tue": return "work";
            case "sun": return "rest";
            default: return "?" + name;
        }
    }
    static int finallyOrder(StringBuilder log) {
        try { log.append("t"); throw new RuntimeException("x"); }
        catch (RuntimeException e) { log.append("c"); return 1; }
        finally { log.append("f"); }
    }
    static class Resource implements AutoCloseable {
        final String name;
        Resource(String name) { this.name = name; System.out.println("open " + name); }
        public void close() throws Exception { System.out.println("close " + name); throw new Exception("in close " + name); }
    }
    static int depth;
    static void recurse() { depth++; recurse(); }
    static class Init { static { System.out.println("init"); } static int value = 5; static final int CONST = 7; }
    static class Bad { static int x = Integer.parseInt("zz"); }
    static String varargs(Object... all) { return all.length + Arrays.toString(all); }
    static String over(Object o) { return "object"; }
    static String over(String o) { return "string"; }
    static String over(Integer o) { return "integer"; }
    static String over(long o) { return "long"; }

    public static void main(String[] args) throws Exception {
        Outer outer = new Outer();
        System.out.println(outer.secret + outer.new Inner().get() + Outer.Nested.hidden());
        for (Op op : Op.values()) System.out.println(op + op.sign + op.apply(6, 7) + op.getDeclaringClass().getSimpleName());
        System.out.println(new AB().hi());
        Point p = new Point(3), q = new Point(3);
        System.out.println(p + " " + p.equals(q) + " " + (p.hashCode() == q.hashCode()) + " " + p.hashCode() + " " + p.sum() + Point.origin());
        try { new Point(-1); } catch (IllegalArgumentException e) { System.out.println(e); }
        System.out.println(eval(new Add(new Num(5), new Neg(new Add(new Num(1), new Num(2))))));
        System.out.println(largest(List.of(3, 9, 4)) + largest(List.of("b", "z", "a")));
        System.out.println(day("mon") + day("sun") + day("AaBB") + day("BBAa"));
        StringBuilder log = new StringBuilder();
        System.out.println(finallyOrder(log) + log.toString());
        try (Resource a = new Resource("a"); Resource b = new Resource("b")) {
            System.out.println("body");
            throw new IllegalStateException("body failed");
        } catch (Exception e) {
            System.out.println(e + " suppressed " + Arrays.toString(e.getSuppressed()));
        }
        try { recurse(); } catch (StackOverflowError e) { System.out.println("overflow " + (depth > 1000)); }
        System.out.println(Init.CONST);
        System.out.println(Init.value);
        try { System.out.println(Bad.x); } catch (ExceptionInInitializerError e) { System.out.println(e.getCause()); }
        try { System.out.println(Bad.x); } catch (NoClassDefFoundError e) { System.out.println(e.getMessage()); }
        System.out.println(varargs() + varargs(1, "two", 3.0, 'c', null));
        Object o = "s";
        System.out.println(over(o) + over("s") + over(1) + over((short) 2) + over(3.0f));
        int[] counts = new int[3];
        try { counts[3]++; } catch (ArrayIndexOutOfBoundsException e) { System.out.println(e.getMessage()); }
        try { Object[] objects = new String[1]; objects[0] = 1; } catch (ArrayStoreException e) { System.out.println(e.getMessage()); }
        try { Object text = "x"; Integer i = (Integer) text; } catch (ClassCastException e) { System.out.println(e.getMessage()); }
        try { Object text = new Outer(); Op i = (Op) text; } catch (ClassCastException e) { System.out.println(e.getMessage()); }
        try { System.out.println(1 / counts[0]); } catch (ArithmeticException e) { System.out.println(e.getMessage()); }
        try { int[] n = new int[counts[0] - 1]; } catch (NegativeArraySizeException e) { System.out.println(e.getMessage()); }
        try { Object n = null; n.hashCode(); } catch (NullPointerException e) { System.out.println("npe"); }
        try { throw new Error("mine", new RuntimeException("cause")); } catch (Throwable t) { System.out.println(t + " " + t.getCause()); }
        StackTraceElement[] trace = new Throwable().getStackTrace();
        System.out.println(trace.length + " " + trace[0]);
        long big = 1L << 40;
        int small = (int) big, shifted = -17 >>> 28, modulo = -17 % 5;
        System.out.println(big + " " + small + " " + shifted + " " + modulo + " " + (char) ('a' + 1) + " " + (byte) 200 + " " + (short) 70000);
        System.out.println((int) Double.NaN + " " + (long) 1e30 + " " + (int) -1e30f + " " + 0.1f + " " + 0.1 + " " + 1e10 + " "
            + 100.0f / 3 + " " + 1.0 / 3);
        System.out.println(Double.compare(0.0, -0.0) + " " + (0.0 == -0.0) + " " + Float.MIN_VALUE + " " + Double.MAX_VALUE + " "
            + 5.0 % 3.2 + " " + Long.MIN_VALUE / -1);
        int[][] grid = new int[3][4];
        grid[1][2] = 7;
        System.out.println(Arrays.deepToString(grid) + grid.getClass().getName() + new int[2][][].length);
        int[] copy = counts.clone();
        System.out.println(copy.length + " " + (copy == counts) + " " + counts.getClass().getSimpleName() + " " + Arrays.equals(copy, counts));
        label:
        for (int i = 0; ; i++) for (int j = 0; j < 5; j++) if (i * j == 12) { System.out.println(i + "*" + j); break label; }
        String text = switch (args.length) { case 0 -> "none"; case 1 -> "one"; default -> { yield "many"; } };
        System.out.println(text + """
             block
               text""");
        var anonymous = new Object() { int hidden = 3; int next() { return ++hidden; } };
        System.out.println(anonymous.next() + anonymous.hidden + anonymous.getClass().getName());
        synchronized (outer) { System.out.println("locked " + Thread.holdsLock(outer)); }
        Character c = 'x'; Integer cached = 127, other = 127; Long l = 5L;
        System.out.println((cached == other) + " " + c.compareTo('y') + " " + l.equals(5) + " " + l.equals(5L));
        System.out.println(Language.class + " " + int.class + " " + Outer.Inner.class.getSimpleName() + " " + Op.ADD.getClass() + " "
            + String[].class);
    }
}
