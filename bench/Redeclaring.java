import java.io.ByteArrayOutputStream;
import java.io.DataOutputStream;
import java.io.IOException;
import java.io.PrintStream;
import java.util.ArrayList;
import java.util.HexFormat;
import java.util.LinkedHashSet;
import java.util.List;
import java.util.Random;
import java.util.Set;

/**
 * Made-up classes, some of which declare methods of their superclasses again, for the program crates/bench: {@code Redeclaring SHAPE
 * COUNT} writes java/lang/Object, the classes, and Caller, which calls {@code Class0.f} by an invokevirtual, as lines of
 * hexadecimal, and the place of that call. The shapes are
 *
 * <ul>
 *   <li>{@code chain}: classes below one another, of which the first has f;
 *   <li>{@code beside}: the same, and one class beside them below the first that has f, too;
 *   <li>{@code own}: classes below one another, each with f;
 *   <li>{@code apart}: the same, each with 30 methods of its own names besides;
 *   <li>{@code pair}: two classes, one below the other, with f and so many methods of the same names;
 *   <li>{@code prints}: the same, of names that have one print.
 * </ul>
 */
final class Redeclaring {
    private static final int OWN = 30;
    private static final int PUBLIC_NATIVE = 0x101;
    private static final int PUBLIC_STATIC = 0x9;
    private static final long MULTIPLIER = 0x9e3779b97f4a7c15L;
    // Bytes that may not stand in a method's name.
    private static final String FORBIDDEN = ".;[/<>";

    private Redeclaring() {}

    /** The constants of a class file, each written once. */
    private static final class Constants {
        private final ByteArrayOutputStream bytes = new ByteArrayOutputStream();
        private final DataOutputStream out = new DataOutputStream(bytes);
        private int count = 1;

        int text(String text) throws IOException {
            out.writeByte(1);
            out.writeUTF(text);
            return count++;
        }

        int named(String name) throws IOException {
            int text = text(name);
            out.writeByte(7);
            out.writeShort(text);
            return count++;
        }

        int pair(int tag, int first, int second) throws IOException {
            out.writeByte(tag);
            out.writeShort(first);
            out.writeShort(second);
            return count++;
        }
    }

    private static byte[] file(String name, String superclass, List<String> methods, boolean calls) throws IOException {
        Constants constants = new Constants();
        int own = constants.named(name);
        int above = superclass == null ? 0 : constants.named(superclass);
        int type = constants.text("()V");
        ByteArrayOutputStream body = new ByteArrayOutputStream();
        DataOutputStream out = new DataOutputStream(body);
        out.writeShort(methods.size() + (calls ? 1 : 0));
        for (String method : methods) {
            out.writeShort(PUBLIC_NATIVE);
            out.writeShort(constants.text(method));
            out.writeShort(type);
            out.writeShort(0);
        }
        if (calls) {
            int target = constants.pair(10, constants.named("Class0"), constants.pair(12, constants.text("f"), type));
            out.writeShort(PUBLIC_STATIC);
            out.writeShort(constants.text("m"));
            out.writeShort(type);
            out.writeShort(1);
            out.writeShort(constants.text("Code"));
            out.writeInt(17);
            out.writeShort(1);
            out.writeShort(0);
            out.writeInt(5);
            out.write(new byte[] {1, (byte) 182, (byte) (target >> 8), (byte) target, (byte) 177});
            out.writeShort(0);
            out.writeShort(0);
        }
        ByteArrayOutputStream bytes = new ByteArrayOutputStream();
        DataOutputStream all = new DataOutputStream(bytes);
        all.writeInt(0xcafebabe);
        all.writeInt(61);
        all.writeShort(constants.count);
        constants.bytes.writeTo(all);
        all.writeShort(0x21);
        all.writeShort(own);
        all.writeShort(above);
        all.writeInt(0);
        body.writeTo(all);
        all.writeShort(0);
        return bytes.toByteArray();
    }

    private static long step(long print, long word) {
        long product = (print ^ word) * MULTIPLIER;
        return product ^ product >>> 32;
    }

    /** A name of 16 bytes that makes the same of 0 as any other of these. */
    private static String alike(Random random) {
        while (true) {
            StringBuilder name = new StringBuilder();
            long first = 0;
            for (int i = 0; i < 8; i++) {
                char letter = (char) ('a' + random.nextInt(26));
                name.append(letter);
                first = first << 8 | letter;
            }
            long second = step(0, first) ^ 0x2020202020202020L;
            boolean fits = true;
            for (int i = 7; i >= 0; i--) {
                char letter = (char) (second >>> 8 * i & 0xff);
                fits = fits && letter > ' ' && letter < 0x7f && FORBIDDEN.indexOf(letter) < 0;
                name.append(letter);
            }
            if (fits) {
                return name.toString();
            }
        }
    }

    private static List<String> names(String shape, int count, int number) {
        Set<String> names = new LinkedHashSet<>();
        Random random = new Random(1);
        if (shape.equals("pair") || shape.equals("prints")) {
            while (names.size() < count) {
                names.add(shape.equals("pair") ? "method" + names.size() : alike(random));
            }
        }
        if (shape.equals("apart")) {
            for (int i = 0; i < OWN; i++) {
                names.add("method" + number + "of" + i);
            }
        }
        if (number == 0 || shape.equals("own") || shape.equals("apart") || shape.equals("pair") || shape.equals("prints")) {
            names.add("f");
        }
        return List.copyOf(names);
    }

    public static void main(String[] words) throws IOException {
        String shape = words[0];
        int count = Integer.parseInt(words[1]);
        int classes = shape.equals("pair") || shape.equals("prints") ? 2 : count;
        PrintStream out = new PrintStream(System.out, false);
        HexFormat hex = HexFormat.of();
        out.println(hex.formatHex(file("java/lang/Object", null, List.of(), false)));
        for (int i = 0; i < classes; i++) {
            String above = i == 0 ? "java/lang/Object" : "Class" + (i - 1);
            out.println(hex.formatHex(file("Class" + i, above, names(shape, count, i), false)));
        }
        int caller = classes + 1;
        if (shape.equals("beside")) {
            out.println(hex.formatHex(file("Beside", "Class0", List.of("f"), false)));
            caller++;
        }
        out.println(hex.formatHex(file("Caller", "java/lang/Object", List.of(), true)));
        out.println(caller + " 0 1");
        out.flush();
    }
}
