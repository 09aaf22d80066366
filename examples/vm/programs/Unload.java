import java.io.*;
import java.lang.ref.*;
import java.util.*;
import java.util.function.*;

/** Makes and drops loaders of four classes each, and calls them through invocations that older classes share. */
public class Unload {
    public interface Shape { double area(); default double twice() { return 2 * area(); } }
    public static class Old implements Shape { public double area() { return 1; } }
    public static abstract class Base {
        int calls;
        public abstract int step(int n);
        public int run(int n) {
            calls++;
            int sum = 0;
            for (int i = 0; i < n; i++) sum += step(i);
            return sum;
        }
    }

    /* From here on the classes that each loader defines for itself. */
    public static class Round implements Shape {
        static int made; static List<Object> all = new ArrayList<>(); final double r;
        public Round() { made++; r = made; all.add(this); }
        public double area() { return r * r * 3; }
        @Override public double twice() { return area() + area(); }
        @Override public String toString() { return "Round " + r + " of " + made; }
    }
    public static class Step extends Base { public int step(int n) { return new Helper().add(n, 1); } }
    public static class Helper { int add(int a, int b) { return a + b; } }
    public static class Lambdas implements Supplier<String> {
        public String get() {
            int base = 5;
            Function<Integer, Integer> f = x -> x + base;
            Supplier<String> s = () -> "s" + f.apply(2);
            return s.get();
        }
    }

    static final Set<String> OWN = Set.of("Unload$Round", "Unload$Step", "Unload$Helper", "Unload$Lambdas");
    static final Map<String, byte[]> FILES = new HashMap<>();
    static class Own extends ClassLoader {
        Own() { super(Unload.class.getClassLoader()); }
        @Override protected Class<?> loadClass(String name, boolean resolve) throws ClassNotFoundException {
            if (!OWN.contains(name)) return super.loadClass(name, resolve);
            Class<?> known = findLoadedClass(name);
            if (known != null) return known;
            byte[] bytes = FILES.get(name);
            return defineClass(name, bytes, 0, bytes.length);
        }
    }
    static double total(Shape s) { return s.area() + s.twice(); }
    static int work(Base b) { return b.run(10); }

    public static void main(String[] args) throws Exception {
        int count = args.length > 0 ? Integer.parseInt(args[0]) : 300;
        boolean lambdas = args.length < 2 || !args[1].equals("plain");
        for (String name : OWN)
            try (InputStream in = new FileInputStream(System.getProperty("java.class.path").split(":")[0] + "/" + name + ".class")) {
                FILES.put(name, in.readAllBytes());
            }
        double sum = 0;
        long steps = 0;
        int texts = 0;
        List<WeakReference<ClassLoader>> made = new ArrayList<>();
        Deque<Object> recent = new ArrayDeque<>();
        for (int i = 0; i < count; i++) {
            Own loader = new Own();
            Shape round = (Shape) loader.loadClass("Unload$Round").getDeclaredConstructor().newInstance();
            Base step = (Base) loader.loadClass("Unload$Step").getDeclaredConstructor().newInstance();
            sum += total(round) + total(new Old());
            steps += work(step);
            if (!round.toString().equals("Round 1.0 of 1")) throw new AssertionError(round.toString());
            if (lambdas) {
                Supplier<?> s = (Supplier<?>) loader.loadClass("Unload$Lambdas").getDeclaredConstructor().newInstance();
                texts += s.get().toString().length();
            }
            if (step.getClass().getClassLoader() != loader || step.calls != 1) throw new AssertionError();
            made.add(new WeakReference<>(loader));
            recent.add(round);
            if (recent.size() > 8) recent.remove();
        }
        for (Object o : recent) sum += total((Shape) o);
        System.out.println(count + " loaders: " + sum + " " + steps + " " + texts);
        recent.clear();
        for (int i = 0; i < 3; i++) System.gc();
        int left = 0;
        for (WeakReference<ClassLoader> one : made) if (one.get() != null) left++;
        System.out.println(left <= 20 ? "they are gone" : "they stay");
    }
}
