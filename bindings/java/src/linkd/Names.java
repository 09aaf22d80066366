package linkd;

import java.io.ByteArrayInputStream;
import java.io.ByteArrayOutputStream;
import java.io.DataInputStream;
import java.io.DataOutputStream;
import java.io.IOException;
import java.io.UncheckedIOException;
import java.nio.ByteBuffer;
import java.util.Arrays;

/** Names and descriptors in modified UTF-8 (JVMS SE 17 §4.4.7), without their lengths. */
final class Names {
    private Names() {
    }

    static byte[] bytes(String text) {
        ByteArrayOutputStream bytes = new ByteArrayOutputStream();
        try (DataOutputStream to = new DataOutputStream(bytes)) {
            to.writeUTF(text);
        } catch (IOException fault) {
            throw new UncheckedIOException("a name is too long", fault);
        }
        return Arrays.copyOfRange(bytes.toByteArray(), Short.BYTES, bytes.size());
    }

    /** The text of bytes that are of a class file, of 65,535 at most. */
    static String text(byte[] bytes) {
        byte[] counted = ByteBuffer.allocate(Short.BYTES + bytes.length).putShort((short) bytes.length).put(bytes).array();
        try (DataInputStream from = new DataInputStream(new ByteArrayInputStream(counted))) {
            return from.readUTF();
        } catch (IOException fault) {
            throw new UncheckedIOException("no name", fault);
        }
    }
}
