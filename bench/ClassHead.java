import java.io.ByteArrayInputStream;
import java.io.DataInputStream;
import java.io.IOException;
import java.util.ArrayList;
import java.util.List;

/** What a class file says of the class itself and of its methods, codes aside (JVMS SE 17 chapter 4). */
record ClassHead(int flags, String name, String superclass, List<String> interfaces, List<Method> methods) {
    static final int PUBLIC = 1;
    static final int PRIVATE = 2;
    static final int STATIC = 8;
    static final int FINAL = 0x10;
    static final int INTERFACE = 0x200;
    static final int ABSTRACT = 0x400;

    /** A method as it is declared. */
    record Method(int flags, String name, String type) {
        boolean is(int flag) {
            return (flags & flag) != 0;
        }
    }

    boolean is(int flag) {
        return (flags & flag) != 0;
    }

    /** Objects may be of the class itself. */
    boolean isConcrete() {
        return !is(INTERFACE) && !is(ABSTRACT);
    }

    /** The superclass's name, if any, and those of the superinterfaces. */
    List<String> parents() {
        List<String> names = new ArrayList<>();
        if (superclass != null) {
            names.add(superclass);
        }
        names.addAll(interfaces);
        return names;
    }

    String packageName() {
        return name.substring(0, Math.max(name.lastIndexOf('/'), 0));
    }

    static ClassHead of(byte[] file) throws IOException {
        return new Reader(file).head();
    }

    /** Walks over the file. It trusts the file, which a JDK has. */
    private static final class Reader {
        private final byte[] file;
        private final int[] places;
        private int at = 10;

        Reader(byte[] file) throws IOException {
            this.file = file;
            places = new int[u2(8)];
            for (int i = 1; i < places.length; i++) {
                int tag = file[at];
                places[i] = at + 1;
                switch (tag) {
                    case 1 -> at += 3 + u2(at + 1);
                    case 3, 4, 9, 10, 11, 12, 17, 18 -> at += 5;
                    case 5, 6 -> {
                        at += 9;
                        i++;
                    }
                    case 7, 8, 16, 19, 20 -> at += 3;
                    case 15 -> at += 4;
                    default -> throw new IOException("a constant of tag " + tag);
                }
            }
        }

        private int u2(int place) {
            return (file[place] & 255) << 8 | file[place + 1] & 255;
        }

        private int next() {
            at += 2;
            return u2(at - 2);
        }

        private String text(int number) throws IOException {
            int place = places[number];
            return new DataInputStream(new ByteArrayInputStream(file, place, file.length - place)).readUTF();
        }

        private String classText(int number) throws IOException {
            return number == 0 ? null : text(u2(places[number]));
        }

        private void skipAttributes() {
            int count = next();
            for (int i = 0; i < count; i++) {
                at += 6 + (u2(at + 2) << 16 | u2(at + 4));
            }
        }

        ClassHead head() throws IOException {
            int flags = next();
            String name = classText(next());
            String superclass = classText(next());
            List<String> interfaces = new ArrayList<>();
            int listed = next();
            for (int i = 0; i < listed; i++) {
                interfaces.add(classText(next()));
            }
            int fields = next();
            for (int i = 0; i < fields; i++) {
                at += 6;
                skipAttributes();
            }
            List<Method> methods = new ArrayList<>();
            int declared = next();
            for (int i = 0; i < declared; i++) {
                methods.add(new Method(next(), text(next()), text(next())));
                skipAttributes();
            }
            return new ClassHead(flags, name, superclass, interfaces, methods);
        }
    }
}
