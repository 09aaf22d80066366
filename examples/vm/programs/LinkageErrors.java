import java.io.*;
import java.nio.charset.StandardCharsets;

/** Errors of linking: classes whose files are changed as they are loaded, so that methods and interfaces aren't where they were. */
public class LinkageErrors {
    public interface Face { int face(); }
    public interface Fact { int other(); }
    public static class Target implements Face {
        public static int removed() { return 1; }
        public int vanish() { return 2; }
        public int face() { return 3; }
        public int stays() { return 4; }
    }
    public static class Base { public int inherited() { return 5; } }
    public static class Caller implements Runnable {
        static void expect(Runnable run) {
            for (int i = 0; i < 2; i++) try { run.run(); System.out.println("no error"); } catch (Throwable e) { System.out.println(e.getClass()); }
        }
        public void run() {
            expect(() -> System.out.println(Target.removed()));
            expect(() -> System.out.println(new Target().vanish()));
            expect(() -> System.out.println(((Face) new Target()).face()));
            expect(() -> System.out.println(new Target().stays()));
            expect(() -> { Object o = new Target(); System.out.println(face(o)); });
            expect(() -> { Target t = null; System.out.println(t.stays()); });
            expect(() -> System.out.println(Missing.f()));
        }
        static int face(Object o) { return ((Face) o).face(); }
    }
    static class Missing { static int f() { return 6; } }
    static class Own extends ClassLoader {
        final String[] changes;
        Own(String... changes) { super(LinkageErrors.class.getClassLoader()); this.changes = changes; }
        @Override protected Class<?> loadClass(String name, boolean resolve) throws ClassNotFoundException {
            if (name.equals("LinkageErrors$Missing")) throw new ClassNotFoundException(name);
            if (!name.startsWith("LinkageErrors$")) return super.loadClass(name, resolve);
            Class<?> known = findLoadedClass(name);
            if (known != null) return known;
            try (InputStream in = new FileInputStream(System.getProperty("java.class.path").split(":")[0] + "/" + name + ".class")) {
                String text = new String(in.readAllBytes(), StandardCharsets.ISO_8859_1);
                if (name.equals("LinkageErrors$Target"))
                    for (int i = 0; i < changes.length; i += 2) text = text.replace(changes[i], changes[i + 1]);
                byte[] bytes = text.getBytes(StandardCharsets.ISO_8859_1);
                return defineClass(name, bytes, 0, bytes.length);
            } catch (IOException e) {
                throw new ClassNotFoundException(name, e);
            }
        }
    }
    public static void main(String[] args) throws Exception {
        String[][] all = {{}, {"removed", "renamed"}, {"vanish", "vanitx"}, {"\4face", "\4fxce"}, {"LinkageErrors$Face", "LinkageErrors$Fact"},
                          {"LinkageErrors$Face", "LinkageErrors$Base"}, {"\u00ca\u00fe\u00ba\u00be", "\u00ca\u00fe\u00ba\u00bf"}};
        for (String[] changes : all) {
            System.out.println("-- " + String.join(" ", changes).replaceAll("[^ -~]", "?"));
            try {
                ((Runnable) new Own(changes).loadClass("LinkageErrors$Caller").getDeclaredConstructor().newInstance()).run();
            } catch (Throwable e) {
                System.out.println("ended by " + e.getClass());
            }
        }
    }
}
