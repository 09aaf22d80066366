import java.io.IOException;
import java.lang.reflect.Method;
import java.net.URL;
import java.net.URLClassLoader;
import java.nio.file.Files;
import java.nio.file.Path;
import java.util.HexFormat;

/** Classes that were sketched: from lines of hexadecimal to files, and from files into this JVM. */
final class Sketched {
    private Sketched() {}

    /**
     * Writes the class of each line to a file named for it, java/lang/Object aside; or, after --load, loads the classes
     * named and prints their superclasses and methods.
     */
    public static void main(String[] words) throws Exception {
        if (words[0].equals("--load")) {
            for (int i = 2; i < words.length; i++) {
                load(Path.of(words[1]), words[i]);
            }
        } else {
            write(Path.of(words[0]), Path.of(words[1]));
        }
    }

    private static void write(Path lines, Path folder) throws IOException {
        for (String line : Files.readAllLines(lines)) {
            byte[] bytes = HexFormat.of().parseHex(line);
            String name = name(bytes);
            System.out.println(name + ": " + bytes.length + " bytes");
            if (!name.equals("java/lang/Object")) {
                Files.write(folder.resolve(name + ".class"), bytes);
            }
        }
    }

    /** A sketch's name is its first constant. */
    private static String name(byte[] bytes) {
        int length = (bytes[11] & 0xff) << 8 | bytes[12] & 0xff;
        return new String(bytes, 13, length, java.nio.charset.StandardCharsets.UTF_8);
    }

    private static void load(Path folder, String name) throws Exception {
        URL[] places = {folder.toUri().toURL()};
        try (URLClassLoader loader = new URLClassLoader(places, null)) {
            Class<?> loaded = Class.forName(name, false, loader);
            System.out.print(loaded + " extends " + loaded.getSuperclass().getName());
            for (Method method : loaded.getDeclaredMethods()) {
                System.out.print("; " + method);
            }
            System.out.println();
        }
    }
}
