import java.io.IOException;
import java.io.PrintWriter;
import java.nio.file.Files;
import java.nio.file.Path;

/**
 * Counts invocations by a reader that isn't ours.
 *
 * <p>{@code Count asm|javap LINES COUNTS EACH} reads each EACH-th line of hexadecimal, the first one among them, and
 * writes for each the line's number from 0, the counts by kind, and two check sums or -1.
 */
final class Count {
    private Count() {}

    public static void main(String[] args) throws IOException, ReflectiveOperationException {
        ClassCounter counter = ClassCounter.named(args[0]);
        int each = Integer.parseInt(args[3]);
        int counted = 0;
        long start = System.nanoTime();
        try (LineReader lines = new LineReader(Path.of(args[1]));
                PrintWriter out = new PrintWriter(Files.newBufferedWriter(Path.of(args[2])))) {
            byte[] line;
            for (int i = 0; (line = lines.next()) != null; i++) {
                if (i % each == 0) {
                    out.println(i + " " + counter.count(Lines.bytesOf(line, 0, line.length)));
                    counted++;
                }
            }
        }
        System.out.printf("%s: %d classes counted in %.1f s%n", args[0], counted, (System.nanoTime() - start) / 1e9);
    }
}
