import java.io.IOException;
import java.io.InputStream;
import java.net.URI;
import java.net.URL;
import java.net.URLClassLoader;
import java.nio.file.FileSystems;
import java.nio.file.Files;
import java.nio.file.Path;
import java.util.Arrays;
import java.util.List;
import java.util.Scanner;
import java.util.Set;
import java.util.TreeSet;
import java.util.stream.Collectors;
import java.util.stream.Stream;
import java.util.zip.ZipEntry;
import java.util.zip.ZipFile;

/**
 * Compares folders of class files with what this JVM finds.
 *
 *     Found                         each line of the input is a folder and a class path, with tabs between them
 *     Found --jdk FOLDER MODULE..   FOLDER has this JDK's own classes, of all its modules unless some are named
 *
 * It ends with status 1 where a folder hasn't exactly the class files that a class loader of the class path, or the JDK, finds. A
 * folder that isn't there is right where the loader finds none. Of a class of more than 1,000,000 bytes the first 1,000,001 are looked for.
 */
class Found {
    private static final int MOST_BYTES = 1_000_000;

    private static int wrong;

    public static void main(String[] args) throws IOException {
        int folders = 0, classes = 0;
        if (args.length > 1) {
            classes = jdk(Path.of(args[1]), List.of(args).subList(2, args.length));
            folders = 1;
        } else {
            try (Scanner lines = new Scanner(System.in)) {
                while (lines.hasNextLine()) {
                    String[] words = lines.nextLine().split("\t");
                    Path[] paths = Arrays.stream(words).skip(1).map(Path::of).toArray(Path[]::new);
                    classes += classPath(Path.of(words[0]), paths);
                    folders++;
                }
            }
        }
        System.out.println(classes + " classes of " + folders + " folders are looked for, and " + wrong + " aren't as a JVM finds them");
        System.exit(wrong == 0 ? 0 : 1);
    }

    /** Compares a folder with a class path, and tells how many classes this has. */
    private static int classPath(Path folder, Path[] paths) throws IOException {
        Set<String> names = new TreeSet<>();
        URL[] urls = new URL[paths.length];
        for (int at = 0; at < paths.length; at++) {
            urls[at] = paths[at].toUri().toURL();
            names.addAll(namesOf(paths[at]));
        }
        Set<String> kept = Files.isDirectory(folder) ? files(folder) : new TreeSet<>();
        int count = 0;
        try (URLClassLoader loader = new URLClassLoader(urls, null)) {
            for (String name : names) {
                URL found = loader.findResource(name);
                if (found == null) {
                    continue;
                }
                count++;
                try (InputStream bytes = found.openStream()) {
                    compare(folder, name, bytes.readAllBytes());
                }
                kept.remove(name);
            }
        }
        superfluous(folder, kept);
        return count;
    }

    /** Compares a folder with the classes of this JDK, of all its modules unless some are named, and tells how many these are. */
    private static int jdk(Path folder, List<String> named) throws IOException {
        Path modules = FileSystems.getFileSystem(URI.create("jrt:/")).getPath("/modules");
        Set<String> kept = files(folder);
        int count = 0;
        try (Stream<Path> all = Files.walk(modules)) {
            for (Path path : (Iterable<Path>) all::iterator) {
                String name = path.getNameCount() < 3 ? "" : path.subpath(2, path.getNameCount()).toString();
                if (isClass(name) && (named.isEmpty() || named.contains(path.getName(1).toString())) && Files.isRegularFile(path)) {
                    count++;
                    compare(folder, name, Files.readAllBytes(path));
                    kept.remove(name);
                }
            }
        }
        superfluous(folder, kept);
        return count;
    }

    private static void compare(Path folder, String name, byte[] bytes) throws IOException {
        Path file = folder.resolve(name);
        byte[] kept = bytes.length > MOST_BYTES ? Arrays.copyOf(bytes, MOST_BYTES + 1) : bytes;
        if (!Files.isRegularFile(file)) {
            tell(folder + " has no " + name);
        } else if (!Arrays.equals(kept, Files.readAllBytes(file))) {
            tell(folder + " has other bytes of " + name);
        }
    }

    private static void superfluous(Path folder, Set<String> names) {
        for (String name : names) {
            tell(folder + " has " + name + ", which a JVM doesn't find");
        }
    }

    private static void tell(String text) {
        if (wrong++ < 20) {
            System.err.println(text);
        }
    }

    /** The files that a path may have for classes, in any version. */
    private static Set<String> namesOf(Path path) throws IOException {
        if (Files.isDirectory(path)) {
            return files(path).stream().filter(Found::isClass).collect(Collectors.toSet());
        }
        try (ZipFile archive = new ZipFile(path.toFile())) {
            return archive.stream().map(ZipEntry::getName).map(name -> name.replaceFirst("^META-INF/versions/[^/]*/", ""))
                .filter(Found::isClass).collect(Collectors.toSet());
        }
    }

    private static boolean isClass(String name) {
        return name.endsWith(".class") && !name.startsWith("META-INF/") && !("/" + name).endsWith("/module-info.class");
    }

    /** All files at and below a folder. */
    private static Set<String> files(Path folder) throws IOException {
        try (Stream<Path> all = Files.walk(folder)) {
            Stream<String> names = all.filter(Files::isRegularFile).map(path -> folder.relativize(path).toString());
            return names.collect(Collectors.toCollection(TreeSet::new));
        }
    }
}
