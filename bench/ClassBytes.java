import java.io.ByteArrayOutputStream;
import java.io.DataOutputStream;
import java.io.IOException;

/** The parts of a class file, put together byte by byte (JVMS SE 17 chapter 4). */
final class ClassBytes {
    private static final int PUBLIC = 1;
    private static final int STATIC = 8;
    private static final int ABSTRACT = 0x400;

    private final ByteArrayOutputStream poolBytes = new ByteArrayOutputStream();
    private final DataOutputStream pool = new DataOutputStream(poolBytes);
    private final ByteArrayOutputStream fieldBytes = new ByteArrayOutputStream();
    private final DataOutputStream fields = new DataOutputStream(fieldBytes);
    private final ByteArrayOutputStream methodBytes = new ByteArrayOutputStream();
    private final DataOutputStream methods = new DataOutputStream(methodBytes);
    private final ByteArrayOutputStream attributeBytes = new ByteArrayOutputStream();
    private final DataOutputStream attributes = new DataOutputStream(attributeBytes);
    private final ByteArrayOutputStream interfaceBytes = new ByteArrayOutputStream();
    private final DataOutputStream interfaces = new DataOutputStream(interfaceBytes);
    private int entries;
    private int fieldCount;
    private int methodCount;
    private int attributeCount;
    private int interfaceCount;
    private final int self;
    private final int object;
    private final int code;
    private int flags = PUBLIC;

    /** A public class of that name below java/lang/Object. */
    ClassBytes(String name) throws IOException {
        self = classEntry(utf8(name));
        object = classEntry(utf8("java/lang/Object"));
        code = utf8("Code");
    }

    void makeAbstract() {
        flags |= ABSTRACT;
    }

    int self() {
        return self;
    }

    /** How many numbers of the pool are left. */
    int room() {
        return 65534 - entries;
    }

    int utf8(String text) throws IOException {
        pool.writeByte(1);
        pool.writeUTF(text);
        return ++entries;
    }

    int classEntry(int name) throws IOException {
        pool.writeByte(7);
        pool.writeShort(name);
        return ++entries;
    }

    int nameAndType(int name, int type) throws IOException {
        pool.writeByte(12);
        pool.writeShort(name);
        pool.writeShort(type);
        return ++entries;
    }

    int methodref(int of, int nameAndType) throws IOException {
        pool.writeByte(10);
        pool.writeShort(of);
        pool.writeShort(nameAndType);
        return ++entries;
    }

    void implement(int classEntry) throws IOException {
        interfaces.writeShort(classEntry);
        interfaceCount++;
    }

    void field(int name, int type) throws IOException {
        fields.writeShort(PUBLIC);
        fields.writeShort(name);
        fields.writeShort(type);
        fields.writeShort(0);
        fieldCount++;
    }

    /** A public abstract method, and that many empty attributes of a name. */
    void abstractMethod(int name, int type, int empty, int attribute) throws IOException {
        methods.writeShort(PUBLIC | ABSTRACT);
        methods.writeShort(name);
        methods.writeShort(type);
        methods.writeShort(empty);
        for (int i = 0; i < empty; i++) {
            methods.writeShort(attribute);
            methods.writeInt(0);
        }
        methodCount++;
    }

    /** A static method with that code. */
    void method(int name, int type, byte[] instructions) throws IOException {
        methods.writeShort(PUBLIC | STATIC);
        methods.writeShort(name);
        methods.writeShort(type);
        methods.writeShort(1);
        methods.writeShort(code);
        methods.writeInt(12 + instructions.length);
        methods.writeShort(8);
        methods.writeShort(8);
        methods.writeInt(instructions.length);
        methods.write(instructions);
        methods.writeShort(0);
        methods.writeShort(0);
        methodCount++;
    }

    /** An attribute of the class. */
    void attribute(int name, byte[] info) throws IOException {
        attributes.writeShort(name);
        attributes.writeInt(info.length);
        attributes.write(info);
        attributeCount++;
    }

    byte[] bytes() throws IOException {
        ByteArrayOutputStream bytes = new ByteArrayOutputStream();
        DataOutputStream out = new DataOutputStream(bytes);
        out.writeInt(0xcafebabe);
        out.writeInt(61);
        out.writeShort(entries + 1);
        poolBytes.writeTo(out);
        out.writeShort(flags);
        out.writeShort(self);
        out.writeShort(object);
        out.writeShort(interfaceCount);
        interfaceBytes.writeTo(out);
        out.writeShort(fieldCount);
        fieldBytes.writeTo(out);
        out.writeShort(methodCount);
        methodBytes.writeTo(out);
        out.writeShort(attributeCount);
        attributeBytes.writeTo(out);
        return bytes.toByteArray();
    }
}
