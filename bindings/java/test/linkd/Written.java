package linkd;

import java.io.ByteArrayOutputStream;
import java.io.DataOutputStream;
import java.io.IOException;
import java.io.UncheckedIOException;
import java.util.List;

/** Class files as small as can be (JVMS SE 17 chapter 4), written from their parts. */
final class Written {
    private final ByteArrayOutputStream entries = new ByteArrayOutputStream();
    private final DataOutputStream pool = new DataOutputStream(entries);
    private int count;

    /** An invocation: its opcode, and the class, the name and the type of the method. */
    record Call(int opcode, String of, String name, String type) {
    }

    private static final int ABSTRACT = 0x0400;

    /** A method without parameters and result. An abstract one has no code. */
    record Method(int flags, String name, List<Call> calls) {
    }

    private int utf8(String text) throws IOException {
        pool.writeByte(1);
        pool.writeUTF(text);
        return ++count;
    }

    private int pair(int tag, int one, int other) throws IOException {
        pool.writeByte(tag);
        pool.writeShort(one);
        pool.writeShort(other);
        return ++count;
    }

    private int type(String name) throws IOException {
        int text = utf8(name);
        pool.writeByte(7);
        pool.writeShort(text);
        return ++count;
    }

    private int method(Call call) throws IOException {
        int of = type(call.of());
        return pair(10, of, pair(12, utf8(call.name()), utf8(call.type())));
    }

    /** A class or an interface by its parts. The superclass and the nest's host may be null. */
    record Parts(int flags, String name, String parent, List<String> interfaces, String host, List<Method> methods) {
    }

    private void write(DataOutputStream to, Method method) throws IOException {
        boolean hasCode = (method.flags() & ABSTRACT) == 0;
        for (int number : new int[] {method.flags(), utf8(method.name()), utf8("()V"), hasCode ? 1 : 0}) {
            to.writeShort(number);
        }
        if (hasCode) {
            writeCode(to, method);
        }
    }

    /** Each call takes three bytes; after them is a return. */
    private void writeCode(DataOutputStream to, Method method) throws IOException {
        ByteArrayOutputStream code = new ByteArrayOutputStream();
        DataOutputStream at = new DataOutputStream(code);
        for (Call call : method.calls()) {
            at.writeByte(call.opcode());
            at.writeShort(method(call));
        }
        at.writeByte(0xb1);
        to.writeShort(utf8("Code"));
        to.writeInt(12 + code.size());
        to.writeInt(0);
        to.writeInt(code.size());
        code.writeTo(to);
        to.writeInt(0);
    }

    private byte[] file(int major, Parts parts) throws IOException {
        ByteArrayOutputStream members = new ByteArrayOutputStream();
        DataOutputStream rest = new DataOutputStream(members);
        for (int number : new int[] {parts.flags(), type(parts.name()), parts.parent() == null ? 0 : type(parts.parent())}) {
            rest.writeShort(number);
        }
        rest.writeShort(parts.interfaces().size());
        for (String name : parts.interfaces()) {
            rest.writeShort(type(name));
        }
        rest.writeShort(0);
        rest.writeShort(parts.methods().size());
        for (Method method : parts.methods()) {
            write(rest, method);
        }
        rest.writeShort(parts.host() == null ? 0 : 1);
        if (parts.host() != null) {
            rest.writeShort(utf8("NestHost"));
            rest.writeInt(2);
            rest.writeShort(type(parts.host()));
        }
        ByteArrayOutputStream bytes = new ByteArrayOutputStream();
        DataOutputStream to = new DataOutputStream(bytes);
        to.writeInt(0xcafebabe);
        to.writeShort(0);
        to.writeShort(major);
        to.writeShort(count + 1);
        entries.writeTo(to);
        members.writeTo(to);
        return bytes.toByteArray();
    }

    /** A public class, in a file of Java 17; java/lang/Object has no superclass, which is null. */
    static byte[] file(String name, String parent, Method... methods) {
        return fileOfVersion(Linker.NEWEST_OF_17, name, parent, methods);
    }

    /** The same in a file of this major version. */
    static byte[] fileOfVersion(int major, String name, String parent, Method... methods) {
        return fileOfVersion(major, new Parts(0x21, name, parent, List.of(), null, List.of(methods)));
    }

    /** A file of Java 17. */
    static byte[] file(Parts parts) {
        return fileOfVersion(Linker.NEWEST_OF_17, parts);
    }

    private static byte[] fileOfVersion(int major, Parts parts) {
        try {
            return new Written().file(major, parts);
        } catch (IOException fault) {
            throw new UncheckedIOException(fault);
        }
    }
}
