import java.io.Closeable;
import java.io.EOFException;
import java.io.IOException;
import java.io.InputStream;
import java.nio.file.Files;
import java.nio.file.Path;
import java.util.Arrays;

/** Reads a file line by line as bytes, fast, whatever the lines' lengths. */
final class LineReader implements Closeable {
    private final InputStream in;
    private byte[] buffer = new byte[1 << 16];
    private int from;
    private int to;

    LineReader(Path path) throws IOException {
        in = Files.newInputStream(path);
    }

    /** The next line without its newline, or null at the end; a last line must end with a newline. */
    byte[] next() throws IOException {
        int searched = from;
        while (true) {
            for (int i = searched; i < to; i++) {
                if (buffer[i] == '\n') {
                    byte[] line = Arrays.copyOfRange(buffer, from, i);
                    from = i + 1;
                    return line;
                }
            }
            searched = to;
            if (to == buffer.length) {
                int kept = to - from;
                byte[] room = kept > buffer.length / 2 ? new byte[2 * buffer.length] : buffer;
                System.arraycopy(buffer, from, room, 0, kept);
                searched -= from;
                buffer = room;
                from = 0;
                to = kept;
            }
            int got = in.read(buffer, to, buffer.length - to);
            if (got < 0) {
                if (from < to) {
                    throw new EOFException("a last line without a newline");
                }
                return null;
            }
            to += got;
        }
    }

    @Override
    public void close() throws IOException {
        in.close();
    }
}
