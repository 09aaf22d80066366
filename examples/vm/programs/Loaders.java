import java.io.*;
import java.util.*;

/** Two loaders that define a class of one name each, by the bytes of a file, and delegate all else. */
public class Loaders {
    public interface Plugin { String name(); default String twice() { return name() + name(); } }
    public static class Impl implements Plugin {
        static int made;
        public Impl() { made++; }
        public String name() { return "impl" + made; }
        @Override public String toString() {
            return "Impl of " + (getClass().getClassLoader() instanceof Own ? ((Own) getClass().getClassLoader()).title : "app");
        }
    }
    public static class Own extends ClassLoader {
        public final String title;
        Own(String title) { super(Loaders.class.getClassLoader()); this.title = title; }
        @Override protected Class<?> loadClass(String name, boolean resolve) throws ClassNotFoundException {
            if (!name.equals("Loaders$Impl")) return super.loadClass(name, resolve);
            Class<?> known = findLoadedClass(name);
            if (known != null) return known;
            try (InputStream in = new FileInputStream(System.getProperty("java.class.path").split(":")[0] + "/" + name + ".class")) {
                byte[] bytes = in.readAllBytes();
                return defineClass(name, bytes, 0, bytes.length);
            } catch (IOException e) {
                throw new ClassNotFoundException(name, e);
            }
        }
    }
    static String use(Plugin p) { return p.name() + " " + p.twice() + " " + p; }
    public static void main(String[] args) throws Exception {
        List<Plugin> all = new ArrayList<>();
        all.add(new Impl());
        for (int i = 0; i < 12; i++) {
            Own loader = new Own("own" + i);
            Class<?> c = loader.loadClass("Loaders$Impl");
            all.add((Plugin) c.getDeclaredConstructor().newInstance());
            System.out.println((c == Impl.class) + " " + (loader.loadClass("Loaders$Impl") == c) + " " + (c.getClassLoader() == loader));
            for (Plugin p : all) System.out.print(use(p) + "; ");
            System.out.println();
        }
        try {
            Object o = (Impl) (Object) all.get(1);
        } catch (ClassCastException e) {
            System.out.println("two classes of one name");
        }

    }
    static { }
}
