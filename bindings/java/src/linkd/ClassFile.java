package linkd;

import java.io.ByteArrayInputStream;
import java.io.DataInputStream;
import java.io.IOException;
import java.io.UncheckedIOException;
import java.nio.ByteBuffer;
import java.util.ArrayList;
import java.util.List;

/**
 * What a class file defines (JVMS SE 17 §4.1).
 *
 * @param name the class
 * @param parents the superclass, where there is one, and the superinterfaces
 */
record ClassFile(String name, List<String> parents) {
    private static final int UTF8 = 1;
    private static final int LONG = 5;
    private static final int DOUBLE = 6;
    private static final int[] LENGTHS = {0, 3, 0, 5, 5, 9, 9, 3, 3, 5, 5, 5, 5, 0, 0, 4, 3, 5, 5, 3, 3};

    /** A file while it is read. */
    private static final class Reader {
        private final byte[] bytes;
        private final ByteBuffer file;
        private int[] pool = {};

        Reader(byte[] bytes) {
            this.bytes = bytes;
            this.file = ByteBuffer.wrap(bytes);
        }

        int u2(int at) {
            return file.getShort(at) & 0xffff;
        }

        /** Where the pool ends. */
        int readPool() {
            pool = new int[u2(8)];
            int at = 10;
            for (int entry = 1; entry < pool.length; entry++) {
                int tag = bytes[at];
                pool[entry] = at;
                at += LENGTHS[tag] + (tag == UTF8 ? u2(at + 1) : 0);
                if (tag == LONG || tag == DOUBLE) {
                    entry++; // these take two numbers
                }
            }
            return at;
        }

        String utf8(int entry) {
            int at = pool[entry] + 1;
            try (DataInputStream from = new DataInputStream(new ByteArrayInputStream(bytes, at, u2(at) + 2))) {
                return from.readUTF();
            } catch (IOException fault) {
                throw new UncheckedIOException(fault);
            }
        }

        String classAt(int entry) {
            return utf8(u2(pool[entry] + 1));
        }

        List<String> readParents(int at) {
            List<String> parents = new ArrayList<>();
            if (u2(at + 4) != 0) {
                parents.add(classAt(u2(at + 4)));
            }
            for (int i = 0; i < u2(at + 6); i++) {
                parents.add(classAt(u2(at + 8 + 2 * i)));
            }
            return parents;
        }
    }

    /** Reads a file of which the linker has found that it is one. */
    static ClassFile of(byte[] bytes) {
        Reader reader = new Reader(bytes);
        int at = reader.readPool();
        String name = reader.classAt(reader.u2(at + 2));
        return new ClassFile(name, reader.readParents(at));
    }
}
