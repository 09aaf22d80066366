import java.io.BufferedOutputStream;
import java.io.IOException;
import java.io.OutputStream;
import java.io.PrintWriter;
import java.lang.management.ManagementFactory;
import java.lang.management.ThreadMXBean;
import java.nio.file.Files;
import java.nio.file.Path;
import java.util.ArrayList;
import java.util.LinkedHashMap;
import java.util.List;
import java.util.Map;

/**
 * The classes of the running JDK in an order in which they can be defined, for {@code linkd run}.
 *
 * <p>{@code Links lines DIR [MAJOR]} writes DIR/ordered.hex, each class file of at most 1,000,000 bytes as a line of
 * hexadecimal after its parents, and DIR/ordered.names; MAJOR is as of {@link Lines}. {@code Links run PROGRAM DIR} has
 * linkd link them ({@link Linking}). {@code Links jvm DIR} times this JVM loading the classes of DIR/ordered.names.
 */
final class Links {
    private Links() {}

    private static void order(String name, Map<String, ClassHead> left, List<String> ordered) {
        ClassHead head = left.remove(name);
        if (head != null) {
            for (String parent : head.parents()) {
                order(parent, left, ordered);
            }
            ordered.add(name);
        }
    }

    private static void lines(Path dir, int major) throws IOException {
        Map<String, byte[]> files = new LinkedHashMap<>();
        Map<String, ClassHead> heads = new LinkedHashMap<>();
        int large = 0;
        int twice = 0;
        int newest = 0;
        long bytes = 0;
        for (Path path : Lines.paths()) {
            byte[] file = Files.readAllBytes(path);
            if (Lines.isModule(path)) {
                continue;
            }
            if (file.length > Lines.MOST_BYTES) {
                large++;
                continue;
            }
            ClassHead head = ClassHead.of(file);
            if (heads.putIfAbsent(head.name(), head) != null) {
                twice++;
                continue;
            }
            newest = Math.max(newest, (file[6] & 255) << 8 | file[7] & 255);
            if (major > 0) {
                file[4] = 0;
                file[5] = 0;
                file[6] = (byte) (major >> 8);
                file[7] = (byte) major;
            }
            files.put(head.name(), file);
            bytes += file.length;
        }
        List<String> ordered = new ArrayList<>();
        for (String name : files.keySet()) {
            order(name, heads, ordered);
        }
        try (OutputStream hex = new BufferedOutputStream(Files.newOutputStream(dir.resolve("ordered.hex")), 1 << 16);
                PrintWriter names = new PrintWriter(Files.newBufferedWriter(dir.resolve("ordered.names")))) {
            for (String name : ordered) {
                hex.write(Lines.line(files.get(name)));
                names.println(name + " " + files.get(name).length);
            }
        }
        System.out.printf("%d classes, %d bytes, %d left out as over %d bytes, %d as of a name that was there%n",
                ordered.size(), bytes, large, Lines.MOST_BYTES, twice);
        System.out.println("newest major version " + newest);
    }

    private static void jvm(Path dir) throws IOException {
        List<String> names = new ArrayList<>();
        for (String line : Files.readAllLines(dir.resolve("ordered.names"))) {
            names.add(line.substring(0, line.lastIndexOf(' ')).replace('/', '.'));
        }
        ClassLoader loader = ClassLoader.getSystemClassLoader();
        ThreadMXBean threads = ManagementFactory.getThreadMXBean();
        int loaded = 0;
        long start = System.nanoTime();
        long cpu = threads.getCurrentThreadCpuTime();
        for (String name : names) {
            try {
                Class.forName(name, false, loader);
                loaded++;
            } catch (ClassNotFoundException | LinkageError e) {
                // It isn't among the loaded ones.
            }
        }
        double seconds = (System.nanoTime() - start) / 1e9;
        double ofThread = (threads.getCurrentThreadCpuTime() - cpu) / 1e9;
        System.out.printf("a JVM, loading: %.2f s (%.2f s of processor), ", seconds, ofThread);
        System.out.printf("%d of %d classes, %.0f a second; peak memory %s%n",
                loaded, names.size(), loaded / seconds, Linking.peak(ProcessHandle.current().pid()));
    }

    public static void main(String[] words) throws IOException, InterruptedException {
        if (words[0].equals("lines")) {
            lines(Path.of(words[1]), words.length > 2 ? Integer.parseInt(words[2]) : 0);
        } else if (words[0].equals("jvm")) {
            jvm(Path.of(words[1]));
        } else {
            System.exit(new Linking(Path.of(words[2])).run(words[1]) ? 0 : 1);
        }
    }
}
