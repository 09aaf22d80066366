import java.io.IOException;
import java.io.InputStream;
import java.lang.ref.WeakReference;
import java.util.ArrayList;
import java.util.List;
import java.util.Set;

/**
 * Makes 200 loaders one after the other, calls their classes through an interface of the application's loader, and drops them. Each third step
 * makes two, of which one has the other as its parent.
 */
final class Dropping {
    private static final int STEPS = 150;
    private static final int CALLS = 20;
    /** How many steps there are between two collections: with so many, a table of eight receivers is too short. */
    private static final int BETWEEN = 5;
    private static final Set<String> ALL = Set.of("Parts$Base", "Parts$Part0", "Parts$Part1", "Parts$Part7");
    private static final Set<String> UPPER = Set.of("Parts$Base", "Parts$Part0", "Parts$Part1");
    private static final Set<String> LOWER = Set.of("Parts$Part7");

    private Dropping() {
    }

    /** Defines some classes by itself, and leaves all others to its parent. */
    static final class Own extends ClassLoader {
        private final Set<String> own;

        Own(ClassLoader parent, Set<String> own) {
            super(parent);
            this.own = own;
        }

        @Override
        protected Class<?> loadClass(String name, boolean resolve) throws ClassNotFoundException {
            if (!own.contains(name)) {
                return super.loadClass(name, resolve);
            }
            synchronized (getClassLoadingLock(name)) {
                Class<?> found = findLoadedClass(name);
                return found != null ? found : define(name);
            }
        }

        private Class<?> define(String name) throws ClassNotFoundException {
            try (InputStream from = Dropping.class.getClassLoader().getResourceAsStream(name + ".class")) {
                byte[] file = from.readAllBytes();
                return defineClass(name, file, 0, file.length);
            } catch (IOException fault) {
                throw new ClassNotFoundException(name, fault);
            }
        }
    }

    /** The application's own step. */
    static final class Fixed implements Step {
        @Override
        public int next(int number) {
            return number + 1;
        }
    }

    /** The call that meets all of them. */
    static int called(Step step, int number) {
        return step.next(number);
    }

    static Step made(Own own, String name) throws ReflectiveOperationException {
        return (Step) own.loadClass(name).getConstructor().newInstance();
    }

    /** What the calls of a step's objects come to; the loaders are of this method alone. */
    static int step(int step, List<WeakReference<ClassLoader>> loaders) throws ReflectiveOperationException {
        ClassLoader application = Dropping.class.getClassLoader();
        boolean shared = step % 3 == 2;
        Own upper = new Own(application, shared ? UPPER : ALL);
        Own lower = shared ? new Own(upper, LOWER) : upper;
        Step[] steps = {made(upper, "Parts$Part0"), made(upper, "Parts$Part1"), made(lower, "Parts$Part7"), new Fixed()};
        int sum = 0;
        for (int call = 0; call < CALLS; call++) {
            for (Step each : steps) {
                sum = called(each, sum) + each.twice(sum);
            }
        }
        loaders.add(new WeakReference<>(upper));
        if (shared) {
            loaders.add(new WeakReference<>(lower));
        }
        return sum;
    }

    static long left(List<WeakReference<ClassLoader>> loaders) {
        return loaders.stream().filter(loader -> loader.get() != null).count();
    }

    /** Collects until they are gone, or for long enough; and gives the machine the time to tell it. */
    static void collect(List<WeakReference<ClassLoader>> loaders) throws InterruptedException {
        for (int turn = 0; turn < 20 && (turn == 0 || left(loaders) > 0); turn++) {
            System.gc();
        }
        Thread.sleep(20);
    }

    /** The number of steps, if there is a word. Throws where a loader isn't collected at the end. */
    public static void main(String[] words) throws Exception {
        int steps = words.length == 0 ? STEPS : Integer.parseInt(words[0]);
        List<WeakReference<ClassLoader>> loaders = new ArrayList<>();
        int sum = 0;
        for (int step = 0; step < steps; step++) {
            sum += step(step, loaders);
            if (step % BETWEEN == BETWEEN - 1) {
                collect(loaders);
            }
        }
        collect(loaders);
        Thread.sleep(500);
        int last = called(new Fixed(), sum);
        if (left(loaders) != 0 || last != sum + 1) {
            throw new AssertionError(left(loaders) + " of " + loaders.size() + " loaders are left");
        }
    }
}
