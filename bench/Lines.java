import java.io.BufferedOutputStream;
import java.io.IOException;
import java.io.OutputStream;
import java.io.PrintWriter;
import java.net.URI;
import java.nio.charset.StandardCharsets;
import java.nio.file.FileSystems;
import java.nio.file.Files;
import java.nio.file.Path;
import java.util.ArrayList;
import java.util.List;
import java.util.stream.Stream;

/**
 * Writes the class files of the running JDK as lines of hexadecimal, in the order of their paths.
 *
 * <p>{@code Lines DIR [MAJOR]} writes DIR/classes.hex and DIR/modules.hex (those called module-info.class), and for
 * each the names and sizes, a line for each line: DIR/classes.names and DIR/modules.names. With MAJOR the bytes 4 to 7
 * of each file are replaced by that version, minor 0.
 */
final class Lines {
    /** What the reader takes at most. */
    static final int MOST_BYTES = 1_000_000;

    private static final byte[] DIGITS = "0123456789abcdef".getBytes(StandardCharsets.US_ASCII);

    private Lines() {}

    /** The paths of all class files of the running JDK, sorted by their text. */
    static List<Path> paths() throws IOException {
        Path top = FileSystems.getFileSystem(URI.create("jrt:/")).getPath("/modules");
        List<Path> found = new ArrayList<>();
        try (Stream<Path> all = Files.walk(top)) {
            all.filter(p -> p.toString().endsWith(".class")).forEach(found::add);
        }
        found.sort((a, b) -> a.toString().compareTo(b.toString()));
        return found;
    }

    static boolean isModule(Path path) {
        return path.getFileName().toString().equals("module-info.class");
    }

    /** The class's name: the path after /modules/NAME/ and before .class; of a module's file after /modules/. */
    private static String nameOf(Path path) {
        String text = path.subpath(isModule(path) ? 1 : 2, path.getNameCount()).toString();
        return text.substring(0, text.length() - ".class".length());
    }

    /** The bytes as one line of lower-case hexadecimal, with its newline. */
    static byte[] line(byte[] bytes) {
        byte[] line = new byte[2 * bytes.length + 1];
        for (int i = 0; i < bytes.length; i++) {
            line[2 * i] = DIGITS[(bytes[i] >> 4) & 15];
            line[2 * i + 1] = DIGITS[bytes[i] & 15];
        }
        line[2 * bytes.length] = '\n';
        return line;
    }

    /** The bytes that a line without its newline spells. */
    static byte[] bytesOf(byte[] line, int from, int to) {
        byte[] bytes = new byte[(to - from) / 2];
        for (int i = 0; i < bytes.length; i++) {
            int high = Character.digit(line[from + 2 * i], 16);
            int low = Character.digit(line[from + 2 * i + 1], 16);
            bytes[i] = (byte) (16 * high + low);
        }
        return bytes;
    }

    private static void write(List<Path> paths, Path dir, String base, int major) throws IOException {
        long bytes = 0;
        int count = 0;
        int large = 0;
        int newest = 0;
        try (OutputStream hex = new BufferedOutputStream(Files.newOutputStream(dir.resolve(base + ".hex")), 1 << 16);
                PrintWriter names = new PrintWriter(Files.newBufferedWriter(dir.resolve(base + ".names")))) {
            for (Path path : paths) {
                byte[] file = Files.readAllBytes(path);
                if (file.length > MOST_BYTES) {
                    large++;
                    continue;
                }
                newest = Math.max(newest, ((file[6] & 255) << 8) | (file[7] & 255));
                if (major > 0) {
                    file[4] = 0;
                    file[5] = 0;
                    file[6] = (byte) (major >> 8);
                    file[7] = (byte) major;
                }
                hex.write(line(file));
                names.println(nameOf(path) + " " + file.length);
                bytes += file.length;
                count++;
            }
        }
        System.out.printf("%s: %d files, %d bytes, %d left out as over %d bytes, newest major version %d%n",
                base, count, bytes, large, MOST_BYTES, newest);
    }

    public static void main(String[] args) throws IOException {
        Path dir = Path.of(args[0]);
        int major = args.length > 1 ? Integer.parseInt(args[1]) : 0;
        List<Path> classes = new ArrayList<>();
        List<Path> modules = new ArrayList<>();
        for (Path path : paths()) {
            (isModule(path) ? modules : classes).add(path);
        }
        write(classes, dir, "classes", major);
        write(modules, dir, "modules", major);
    }
}
