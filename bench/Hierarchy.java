import java.io.ByteArrayOutputStream;
import java.io.DataOutputStream;
import java.io.IOException;
import java.io.PrintStream;
import java.util.ArrayList;
import java.util.HashMap;
import java.util.HexFormat;
import java.util.List;
import java.util.Map;

/**
 * Class files of a hierarchy, for the program crates/bench, and what a JVM takes for the same.
 *
 * <p>{@code Hierarchy lines SHAPE COUNT} writes java/lang/Object and the classes as lines of hexadecimal. {@code
 * Hierarchy jvm SHAPE COUNT} has a loader of its own define them, 3,000 at a time, and then asks of each class 32 times
 * what a hash map holds under its name, and whether another class is above it. SHAPE is {@code tree}, for 100 interfaces
 * and classes that list 10 of them each, with four classes below each class, or {@code chain}, for classes below one
 * another.
 */
final class Hierarchy extends ClassLoader {
    private static final int BATCH = 3000;
    private static final int ROUNDS = 32;
    private static final int INTERFACES = 100;
    private static final int LISTED = 10;
    private static final int CHILDREN = 4;

    private record Row(String name, byte[] file) {}

    private Hierarchy() {
        super(Hierarchy.class.getClassLoader());
    }

    private static byte[] file(int flags, String name, String superclass, List<String> interfaces) throws IOException {
        List<String> names = new ArrayList<>();
        names.add(name);
        if (superclass != null) {
            names.add(superclass);
        }
        names.addAll(interfaces);
        ByteArrayOutputStream bytes = new ByteArrayOutputStream();
        DataOutputStream out = new DataOutputStream(bytes);
        out.writeInt(0xcafebabe);
        out.writeInt(61);
        out.writeShort(2 * names.size() + 1);
        for (int i = 0; i < names.size(); i++) {
            out.writeByte(1);
            out.writeUTF(names.get(i));
            out.writeByte(7);
            out.writeShort(2 * i + 1);
        }
        out.writeShort(flags);
        out.writeShort(2);
        out.writeShort(superclass == null ? 0 : 4);
        out.writeShort(interfaces.size());
        for (int i = 0; i < interfaces.size(); i++) {
            out.writeShort(2 * i + 6);
        }
        out.writeShort(0);
        out.writeShort(0);
        out.writeShort(0);
        return bytes.toByteArray();
    }

    private static String interfaceName(int number) {
        return "app/kind/Kind" + number;
    }

    private static String className(int number) {
        return "app/part" + number % 50 + "/Class" + number;
    }

    private static List<Row> rows(String shape, int count) throws IOException {
        List<Row> rows = new ArrayList<>();
        if (shape.equals("tree")) {
            for (int i = 0; i < INTERFACES; i++) {
                rows.add(new Row(interfaceName(i), file(0x601, interfaceName(i), "java/lang/Object", List.of())));
            }
        }
        for (int i = 0; i < count; i++) {
            List<String> interfaces = new ArrayList<>();
            String superclass = i == 0 ? "java/lang/Object" : className(i - 1);
            if (shape.equals("tree")) {
                superclass = i == 0 ? "java/lang/Object" : className((i - 1) / CHILDREN);
                for (int j = 0; j < LISTED; j++) {
                    interfaces.add(interfaceName((i + 7 * j) % INTERFACES));
                }
            }
            rows.add(new Row(className(i), file(0x21, className(i), superclass, interfaces)));
        }
        return rows;
    }

    private static void lines(List<Row> rows, PrintStream out) throws IOException {
        HexFormat hex = HexFormat.of();
        out.println(hex.formatHex(file(0x21, "java/lang/Object", null, List.of())));
        for (Row row : rows) {
            out.println(hex.formatHex(row.file()));
        }
        out.flush();
    }

    private void jvm(List<Row> rows) {
        List<Class<?>> classes = new ArrayList<>(List.of(Object.class));
        List<String> names = new ArrayList<>(List.of("java/lang/Object"));
        Map<String, Class<?>> byName = new HashMap<>(Map.of("java/lang/Object", Object.class));
        for (int from = 0; from < rows.size(); from += BATCH) {
            int to = Math.min(from + BATCH, rows.size());
            long start = System.nanoTime();
            for (Row row : rows.subList(from, to)) {
                Class<?> made = defineClass(row.name().replace('/', '.'), row.file(), 0, row.file().length);
                classes.add(made);
                names.add(row.name());
                byName.put(row.name(), made);
            }
            System.err.println("defined " + (to - from) + " in " + (System.nanoTime() - start) / 1000 + " us");
        }
        int found = 0;
        int related = 0;
        long start = System.nanoTime();
        for (int round = 0; round < ROUNDS; round++) {
            for (String name : names) {
                if (byName.get(name) != null) {
                    found++;
                }
            }
        }
        long finding = (System.nanoTime() - start) / 1000;
        start = System.nanoTime();
        for (int round = 0; round < ROUNDS; round++) {
            for (int number = 0; number < classes.size(); number++) {
                if (classes.get(number >> round).isAssignableFrom(classes.get(number))) {
                    related++;
                }
            }
        }
        long relating = (System.nanoTime() - start) / 1000;
        System.out.println("classes " + classes.size() + "\nfound " + found + "\nrelated " + related);
        System.err.println("look-ups in " + finding + " us, ancestors in " + relating + " us");
    }

    public static void main(String[] words) throws IOException {
        List<Row> rows = rows(words[1], Integer.parseInt(words[2]));
        if (words[0].equals("lines")) {
            lines(rows, new PrintStream(System.out, false));
        } else {
            new Hierarchy().jvm(rows);
        }
    }
}
