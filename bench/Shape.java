import java.io.ByteArrayOutputStream;
import java.io.DataOutputStream;
import java.io.IOException;

/** Class files that a reader may be slow on. Each is made in a size of so many eighths. */
enum Shape {
    CALLS("methods of 200 calls each", true) {
        @Override
        void fill(ClassBytes file, int eighths) throws IOException {
            int type = file.utf8("()V");
            int[] targets = new int[100];
            for (int i = 0; i < targets.length; i++) {
                targets[i] = file.methodref(file.self(), file.nameAndType(file.utf8("t" + i), type));
            }
            // 635 bytes a method: 8 and 18 around the code of 601, and 8 for its name.
            for (int i = 0; i < 196 * eighths; i++) {
                file.method(file.utf8(String.format("m%04d", i)), type, calls(200, targets));
            }
        }
    },
    TEXTS("a pool of 65,000 Utf8 entries", true) {
        @Override
        void fill(ClassBytes file, int eighths) throws IOException {
            for (int i = 0; i < 8125 * eighths; i++) {
                file.utf8(String.format("text_%07d", i));
            }
        }
    },
    ONE_TYPE("one descriptor of 65,000 bytes, named by 30,000 NameAndTypes and they by 30,000 Methodrefs", true) {
        @Override
        void fill(ClassBytes file, int eighths) throws IOException {
            int name = file.utf8("f");
            int type = file.utf8("(L" + "a".repeat(8125 * eighths - 5) + ";)V");
            for (int i = 0; i < 3750 * eighths; i++) {
                file.methodref(file.self(), file.nameAndType(name, type));
            }
        }
    },
    ONE_CLASS("one class name of 65,000 bytes, named by 60,000 Class entries", true) {
        @Override
        void fill(ClassBytes file, int eighths) throws IOException {
            int name = file.utf8("a".repeat(8125 * eighths));
            for (int i = 0; i < 7500 * eighths; i++) {
                file.classEntry(name);
            }
        }
    },
    FIELDS("65,000 fields of one name and type, which a JVM refuses and the reader doesn't look at", false) {
        @Override
        void fill(ClassBytes file, int eighths) throws IOException {
            int name = file.utf8("f");
            int type = file.utf8("I");
            for (int i = 0; i < 8125 * eighths; i++) {
                file.field(name, type);
            }
        }
    },
    FIELD_TYPES("50,000 fields of one name", true) {
        @Override
        void fill(ClassBytes file, int eighths) throws IOException {
            int name = file.utf8("f");
            for (int i = 0; i < 6250 * eighths; i++) {
                file.field(name, file.utf8(String.format("Lt%05d;", i)));
            }
        }
    },
    METHODS("20,000 methods of one name", true) {
        @Override
        void fill(ClassBytes file, int eighths) throws IOException {
            file.makeAbstract();
            int name = file.utf8("f");
            for (int i = 0; i < 2500 * eighths; i++) {
                int type = file.utf8(String.format("(La/package/of/some/length/T%05d;)V", i));
                file.abstractMethod(name, type, 0, 0);
            }
        }
    },
    METHOD_NAMES("20,000 methods of one name, which stands in the pool once for each", true) {
        @Override
        void fill(ClassBytes file, int eighths) throws IOException {
            file.makeAbstract();
            for (int i = 0; i < 2500 * eighths; i++) {
                int name = file.utf8("same_name");
                int type = file.utf8(String.format("(Lpackage/T%05d;)V", i));
                file.abstractMethod(name, type, 0, 0);
            }
        }
    },
    ONE_CODE("one code of 65,535 bytes: 13 nops, a call, and so on", true) {
        @Override
        void fill(ClassBytes file, int eighths) throws IOException {
            int type = file.utf8("()V");
            int target = file.methodref(file.self(), file.nameAndType(file.utf8("t"), type));
            byte[] code = new byte[eighths == 8 ? 65535 : 8191 * eighths];
            byte[] call = calls(1, new int[] {target});
            for (int at = 13; at + 3 < code.length; at += 16) {
                System.arraycopy(call, 0, code, at, 3);
            }
            code[code.length - 1] = (byte) 177;
            file.method(file.utf8("f"), type, code);
        }
    },
    TINY_CODES("25,000 codes of a call and a return", true) {
        @Override
        void fill(ClassBytes file, int eighths) throws IOException {
            int type = file.utf8("()V");
            int target = file.methodref(file.self(), file.nameAndType(file.utf8("t"), type));
            byte[] code = calls(1, new int[] {target});
            for (int i = 0; i < 3125 * eighths; i++) {
                file.method(file.utf8(String.format("m%05d", i)), type, code);
            }
        }
    },
    SWITCHES("codes of switches of 1,000 rows", true) {
        @Override
        void fill(ClassBytes file, int eighths) throws IOException {
            int type = file.utf8("(I)V");
            byte[] code = switches();
            for (int i = 0; i < 2 * eighths; i++) {
                file.method(file.utf8("m" + i), type, code);
            }
        }
    },
    ATTRIBUTES("a method with 65,000 empty attributes", true) {
        @Override
        void fill(ClassBytes file, int eighths) throws IOException {
            file.makeAbstract();
            int other = file.utf8("Other");
            file.abstractMethod(file.utf8("f"), file.utf8("()V"), 8125 * eighths, other);
        }
    },
    // From here on one long name stands at many places: the answers grow as the square of the file, or what a reader
    // keeps does, if it copies the name for each place.
    LONG_METHOD("600 methods of one name of 30,000 bytes; the answer grows as the square", true) {
        @Override
        void fill(ClassBytes file, int eighths) throws IOException {
            file.makeAbstract();
            int name = file.utf8("a".repeat(3750 * eighths));
            for (int i = 0; i < 75 * eighths; i++) {
                file.abstractMethod(name, file.utf8(String.format("(LT%05d;)V", i)), 0, 0);
            }
        }
    },
    LONG_CALLED("600 calls of one name of 30,000 bytes; the answer grows as the square", true) {
        @Override
        void fill(ClassBytes file, int eighths) throws IOException {
            int type = file.utf8("()V");
            int name = file.utf8("a".repeat(3750 * eighths));
            int target = file.methodref(file.self(), file.nameAndType(name, type));
            file.method(file.utf8("f"), type, calls(75 * eighths, new int[] {target}));
        }
    },
    INTERFACES("one class name of 65,000 bytes, listed 60,000 times as a superinterface, which a JVM refuses", false) {
        @Override
        void fill(ClassBytes file, int eighths) throws IOException {
            int name = file.classEntry(file.utf8("a".repeat(8125 * eighths)));
            for (int i = 0; i < 7500 * eighths; i++) {
                file.implement(name);
            }
        }
    },
    NEST("one class name of 65,000 bytes, named by 60,000 Class entries, which are the nest's members", true) {
        @Override
        void fill(ClassBytes file, int eighths) throws IOException {
            int name = file.utf8("a".repeat(8125 * eighths));
            ByteArrayOutputStream bytes = new ByteArrayOutputStream();
            DataOutputStream info = new DataOutputStream(bytes);
            info.writeShort(7500 * eighths);
            for (int i = 0; i < 7500 * eighths; i++) {
                info.writeShort(file.classEntry(name));
            }
            file.attribute(file.utf8("NestMembers"), bytes.toByteArray());
        }
    };

    final String says;

    /** Whether a JVM defines the class: it is well-formed in what the reader doesn't look at, too. */
    final boolean loads;

    Shape(String says, boolean loads) {
        this.says = says;
        this.loads = loads;
    }

    abstract void fill(ClassBytes file, int eighths) throws IOException;

    /** The class file of that size. */
    byte[] bytes(int eighths) throws IOException {
        ClassBytes file = new ClassBytes("Shape");
        fill(file, eighths);
        if (file.room() < 0) {
            throw new IllegalStateException(this + " takes too many entries");
        }
        return file.bytes();
    }

    /** So many calls of the targets in turn, and a return. */
    private static byte[] calls(int count, int[] targets) {
        byte[] code = new byte[3 * count + 1];
        for (int i = 0; i < count; i++) {
            int target = targets[i % targets.length];
            code[3 * i] = (byte) 184;
            code[3 * i + 1] = (byte) (target >> 8);
            code[3 * i + 2] = (byte) target;
        }
        code[3 * count] = (byte) 177;
        return code;
    }

    /** A tableswitch and a lookupswitch of 1,000 rows, and so on, each of which goes to the return at the end. */
    private static byte[] switches() throws IOException {
        int pairs = 5;
        // An iload_0, the opcode, 2 bytes of padding, and 12 and 4,000 bytes; or 3 and 1 byte, and 8 and 8,000.
        int table = 4 + 12 + 4000;
        int lookup = 4 + 8 + 8000;
        int end = pairs * (table + lookup);
        ByteArrayOutputStream bytes = new ByteArrayOutputStream();
        DataOutputStream out = new DataOutputStream(bytes);
        for (int i = 0; i < pairs; i++) {
            out.writeByte(26);
            int at = out.size();
            out.writeByte(170);
            out.writeShort(0);
            out.writeInt(end - at);
            out.writeInt(0);
            out.writeInt(999);
            for (int row = 0; row < 1000; row++) {
                out.writeInt(end - at);
            }
            out.writeByte(26);
            at = out.size();
            out.writeByte(171);
            out.writeShort(0);
            out.writeInt(end - at);
            out.writeInt(1000);
            for (int row = 0; row < 1000; row++) {
                out.writeInt(row);
                out.writeInt(end - at);
            }
        }
        out.writeByte(177);
        return bytes.toByteArray();
    }
}
