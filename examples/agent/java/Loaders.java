import java.io.IOException;
import java.io.InputStream;
import java.util.ArrayList;
import java.util.List;

/** Loads 200 classes by 20 loaders of its own, with the same names by each, and calls them through an interface of the application's loader. */
final class Loaders {
    private static final int LOADERS = 20;
    private static final int PARTS = 9;
    private static final int ROUNDS = 5;

    private Loaders() {
    }

    /** Defines the classes of Parts by itself, and leaves all others to the application's loader. */
    static final class Own extends ClassLoader {
        Own() {
            super(Loaders.class.getClassLoader());
        }

        @Override
        protected Class<?> loadClass(String name, boolean resolve) throws ClassNotFoundException {
            if (!name.startsWith("Parts$")) {
                return super.loadClass(name, resolve);
            }
            synchronized (getClassLoadingLock(name)) {
                Class<?> found = findLoadedClass(name);
                return found != null ? found : define(name);
            }
        }

        private Class<?> define(String name) throws ClassNotFoundException {
            try (InputStream from = getParent().getResourceAsStream(name + ".class")) {
                byte[] file = from.readAllBytes();
                return defineClass(name, file, 0, file.length);
            } catch (IOException fault) {
                throw new ClassNotFoundException(name, fault);
            }
        }
    }

    static List<Step> load() throws ReflectiveOperationException {
        List<Step> steps = new ArrayList<>();
        for (int loader = 0; loader < LOADERS; loader++) {
            Own own = new Own();
            for (int part = 0; part < PARTS; part++) {
                steps.add((Step) own.loadClass("Parts$Part" + part).getConstructor().newInstance());
            }
        }
        return steps;
    }

    static int sum(List<Step> steps) {
        int sum = 0;
        for (Step step : steps) {
            sum += step.next(sum) + step.twice(sum);
        }
        return sum;
    }

    /** Throws where two loaders have one class, or a sum comes out in another way a second time. */
    public static void main(String[] words) throws Exception {
        List<Step> steps = load();
        long classes = steps.stream().map(Object::getClass).distinct().count();
        int first = sum(steps);
        Thread[] threads = new Thread[ROUNDS];
        int[] sums = new int[ROUNDS];
        for (int round = 0; round < ROUNDS; round++) {
            int own = round;
            threads[round] = new Thread(() -> sums[own] = sum(steps));
            threads[round].start();
        }
        for (int round = 0; round < ROUNDS; round++) {
            threads[round].join();
            if (sums[round] != first) {
                throw new AssertionError("round " + round + ": " + sums[round] + ", not " + first);
            }
        }
        if (classes != LOADERS * PARTS) {
            throw new AssertionError(classes + " classes");
        }
    }
}
