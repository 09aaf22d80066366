import java.io.FileInputStream;
import java.io.IOException;
import java.io.InputStream;
import java.util.ArrayDeque;
import java.util.Deque;

/** Loaders of one class each, of ten kinds, of which twelve are kept: calls are megamorphic, and where loaders go their numbers come again
 * for classes of other kinds, whose methods stand at other places. */
public class Parts {
    public interface Part {
        int value(int n);
    }

    public static class Part0 implements Part {
        @Override public int value(int n) {
            return 1 * n;
        }
    }

    public static class Part1 implements Part {
        public int extra0() {
            return 0;
        }

        @Override public int value(int n) {
            return 2 * n;
        }
    }

    public static class Part2 implements Part {
        public int extra0() {
            return 0;
        }

        public int extra1() {
            return 1;
        }

        @Override public int value(int n) {
            return 3 * n;
        }
    }

    public static class Part3 implements Part {
        public int extra0() {
            return 0;
        }

        public int extra1() {
            return 1;
        }

        public int extra2() {
            return 2;
        }

        @Override public int value(int n) {
            return 4 * n;
        }
    }

    public static class Part4 implements Part {
        @Override public int value(int n) {
            return 5 * n;
        }
    }

    public static class Part5 implements Part {
        public int extra0() {
            return 0;
        }

        @Override public int value(int n) {
            return 6 * n;
        }
    }

    public static class Part6 implements Part {
        public int extra0() {
            return 0;
        }

        public int extra1() {
            return 1;
        }

        @Override public int value(int n) {
            return 7 * n;
        }
    }

    public static class Part7 implements Part {
        public int extra0() {
            return 0;
        }

        public int extra1() {
            return 1;
        }

        public int extra2() {
            return 2;
        }

        @Override public int value(int n) {
            return 8 * n;
        }
    }

    public static class Part8 implements Part {
        @Override public int value(int n) {
            return 9 * n;
        }
    }

    public static class Part9 implements Part {
        public int extra0() {
            return 0;
        }

        @Override public int value(int n) {
            return 10 * n;
        }
    }

    static final class Own extends ClassLoader {
        Own() {
            super(Parts.class.getClassLoader());
        }

        @Override protected Class<?> loadClass(String name, boolean resolve) throws ClassNotFoundException {
            if (!name.startsWith("Parts$Part") || name.equals("Parts$Part")) return super.loadClass(name, resolve);
            Class<?> known = findLoadedClass(name);
            if (known != null) return known;
            String folder = System.getProperty("java.class.path").split(":")[0];
            try (InputStream in = new FileInputStream(folder + "/" + name + ".class")) {
                byte[] bytes = in.readAllBytes();
                return defineClass(name, bytes, 0, bytes.length);
            } catch (IOException e) {
                throw new ClassNotFoundException(name, e);
            }
        }
    }

    static Part make(int kind) throws Exception {
        return (Part) new Own().loadClass("Parts$Part" + kind).getDeclaredConstructor().newInstance();
    }

    public static void main(String[] args) throws Exception {
        int count = args.length > 0 ? Integer.parseInt(args[0]) : 200, seed = 1;
        Deque<Part> parts = new ArrayDeque<>();
        Deque<Integer> kinds = new ArrayDeque<>();
        long sum = 0;
        for (int i = 0; i < count; i++) {
            seed = seed * 1103515245 + 12345;
            int kind = (seed >>> 16) % 10, right = 0, got = 0;
            parts.add(make(kind));
            kinds.add(kind + 1);
            if (parts.size() > 12) {
                parts.remove();
                kinds.remove();
            }
            for (int factor : kinds) right += factor * i;
            for (Part part : parts) got += part.value(i);
            if (got != right) throw new AssertionError(got + " and not " + right);
            sum += got;
        }
        System.out.println(count + " parts: " + sum);
    }
}
