import java.io.FileInputStream;
import java.io.IOException;
import java.io.InputStream;
import java.util.concurrent.atomic.AtomicIntegerArray;

/** Four threads call while classes come that override what they call, and loaders with such classes go. Each looks whether it gets what the
 * object's own class gives. */
public class Defining {
    public abstract static class Shape {
        public abstract long area(int n);

        public long twice(int n) {
            return 2 * area(n);
        }

        public abstract int factor();
    }

    public static class Sub1 extends Shape {
        @Override public long area(int n) {
            return n;
        }

        @Override public int factor() {
            return 1;
        }
    }

    public static class Sub2 extends Sub1 {
        @Override public long area(int n) {
            return 2L * n;
        }

        @Override public int factor() {
            return 2;
        }
    }

    public static class Sub3 extends Sub2 {
        @Override public long twice(int n) {
            return area(n) + 3L * n;
        }

        @Override public long area(int n) {
            return 3L * n;
        }

        @Override public int factor() {
            return 3;
        }
    }

    public static class Sub4 extends Shape {
        @Override public long area(int n) {
            return 4L * n;
        }

        @Override public int factor() {
            return 4;
        }
    }

    public static class Sub5 extends Sub4 {
        @Override public long twice(int n) {
            return 10L * n;
        }

        @Override public long area(int n) {
            return super.area(n) + n;
        }

        @Override public int factor() {
            return 5;
        }
    }

    /** Defines its own Sub2 to Sub5. */
    static final class Own extends ClassLoader {
        Own() {
            super(Defining.class.getClassLoader());
        }

        @Override protected Class<?> loadClass(String name, boolean resolve) throws ClassNotFoundException {
            if (!name.startsWith("Defining$Sub") || name.endsWith("1")) return super.loadClass(name, resolve);
            Class<?> known = findLoadedClass(name);
            if (known != null) return known;
            String folder = System.getProperty("java.class.path").split(":")[0];
            try (InputStream in = new FileInputStream(folder + "/" + name + ".class")) {
                byte[] bytes = in.readAllBytes();
                return defineClass(name, bytes, 0, bytes.length);
            } catch (IOException e) {
                throw new ClassNotFoundException(name, e);
            }
        }
    }

    static final int THREADS = 4;
    static volatile Shape[] shapes = {new Sub1()};
    static volatile int version;
    static volatile boolean done;
    static final AtomicIntegerArray seen = new AtomicIntegerArray(THREADS);

    static void work(int number) {
        for (int i = 1; !done; i++) {
            int now = version;
            for (Shape shape : shapes) {
                long right = (long) shape.factor() * i;
                if (shape.area(i) != right || shape.twice(i) != 2 * right) throw new AssertionError(shape + " " + i);
            }
            seen.set(number, now);
        }
    }

    /** Until each thread has called on all of them. */
    static void publish(Shape... now) throws InterruptedException {
        shapes = now;
        version++;
        for (int i = 0; i < THREADS; i++)
            while (seen.get(i) < version) Thread.sleep(0, 1000);
    }

    static Shape make(ClassLoader loader, int number) throws Exception {
        return (Shape) Class.forName("Defining$Sub" + number, true, loader).getDeclaredConstructor().newInstance();
    }

    public static void main(String[] args) throws Exception {
        int rounds = args.length > 0 ? Integer.parseInt(args[0]) : 6;
        Thread[] threads = new Thread[THREADS];
        int[] wrong = new int[THREADS];
        for (int i = 0; i < THREADS; i++) {
            int number = i;
            threads[i] = new Thread(() -> work(number));
            threads[i].setUncaughtExceptionHandler((thread, e) -> {
                wrong[number]++;
                System.out.println("wrong: " + e);
                seen.set(number, Integer.MAX_VALUE);
            });
            threads[i].start();
        }
        for (int round = 0; round < rounds; round++) {
            ClassLoader loader = round == 0 ? Defining.class.getClassLoader() : new Own();
            Shape[] some = {new Sub1(), null, null, null, null};
            for (int i = 2; i <= 5; i++) {
                some[i - 1] = make(loader, i);
                publish(java.util.Arrays.copyOf(some, i));
            }
            System.out.println("round " + round + " " + (some[4].getClass().getClassLoader() == loader));
            if (round % 4 == 3) System.gc();
        }
        done = true;
        for (Thread thread : threads) thread.join();
        System.out.println(java.util.Arrays.stream(wrong).sum() + " wrong");
    }
}
