import java.io.BufferedOutputStream;
import java.io.File;
import java.io.IOException;
import java.io.OutputStream;
import java.nio.charset.StandardCharsets;
import java.nio.file.Files;
import java.nio.file.Path;
import java.util.Arrays;
import java.util.Locale;
import java.util.concurrent.TimeUnit;

/**
 * Times {@code linkd scan} on class files of each {@link Shape} in growing sizes.
 *
 * <p>{@code Growth PROGRAM DIR MEGABYTES SECONDS READER [SHAPE..]} writes the lines into DIR, some MEGABYTES of them a
 * run, stops a run after SECONDS, and has READER (asm or javap) read each file, too. The exit status is 1 where a file
 * is refused, its invocations are others than READER's, or the time for a byte grows.
 */
final class Growth {
    /** From one size to the doubled one, the time for a byte that is read or written may grow by so much: noise. */
    private static final double MOST_GROWTH = 1.4;

    /** Answers of a run in all, at most, where one alone isn't longer. */
    private static final long MOST_ANSWERS = 500_000_000L;

    private static final double SHORT = 3;

    private final String program;
    private final Path dir;
    private final long wanted;
    private final int limit;
    private final ClassCounter counter;
    private boolean good = true;

    private Growth(String[] args) throws ReflectiveOperationException {
        program = args[0];
        dir = Path.of(args[1]);
        wanted = Long.parseLong(args[2]) * 1_000_000;
        limit = Integer.parseInt(args[3]);
        counter = ClassCounter.named(args[4]);
    }

    private void bad(String how) {
        good = false;
        System.out.println("    BAD: " + how);
    }

    /** Whether the JVM defines the class. */
    private static final class Loader extends ClassLoader {
        String define(byte[] file) {
            try {
                defineClass(null, file, 0, file.length);
                return "defined";
            } catch (LinkageError error) {
                String text = error.getClass().getSimpleName() + ": " + error.getMessage();
                return text.length() > 100 ? text.substring(0, 100) + ".." : text;
            }
        }
    }

    private void checkFile(Shape shape, byte[] file) {
        if (file.length > Lines.MOST_BYTES) {
            bad(file.length + " bytes are too many");
        }
        String defined = new Loader().define(file);
        if (shape.loads != defined.equals("defined")) {
            bad("the JVM says: " + defined);
        }
    }

    private void write(byte[] line, int times) throws IOException {
        try (OutputStream out = new BufferedOutputStream(Files.newOutputStream(dir.resolve("lines.hex")), 1 << 16)) {
            for (int i = 0; i < times; i++) {
                out.write(line);
            }
        }
    }

    /** The seconds that a run took, or -1 where it was stopped or failed. */
    private double run() throws IOException, InterruptedException {
        File errors = dir.resolve("errors.txt").toFile();
        ProcessBuilder builder = new ProcessBuilder(program, "scan");
        builder.redirectInput(dir.resolve("lines.hex").toFile());
        builder.redirectOutput(dir.resolve("answers.json").toFile());
        builder.redirectError(errors);
        long start = System.nanoTime();
        Process process = builder.start();
        if (!process.waitFor(limit, TimeUnit.SECONDS)) {
            process.destroyForcibly().waitFor();
            bad("over " + limit + " s");
            return -1;
        }
        double seconds = (System.nanoTime() - start) / 1e9;
        if (process.exitValue() != 0) {
            bad("status " + process.exitValue() + ": " + Files.readString(errors.toPath()).strip());
            return -1;
        }
        return seconds;
    }

    /** The length of an answer, where the run gave so many equal ones; else -1. */
    private long answer(int times, Sites theirs) throws IOException {
        byte[] first;
        try (LineReader lines = new LineReader(dir.resolve("answers.json"))) {
            first = lines.next();
            int count = first == null ? 0 : 1;
            byte[] line = first;
            while (line != null && (line = lines.next()) != null) {
                count++;
                if (!Arrays.equals(first, line)) {
                    bad("answer " + count + " is another than the first");
                    return -1;
                }
            }
            if (count != times) {
                bad(count + " answers to " + times + " lines");
                return -1;
            }
        }
        String text = new String(first, 0, Math.min(first.length, 100), StandardCharsets.UTF_8);
        if (!text.startsWith("{\"class\":\"Shape\",\"methods\":[")) {
            bad("answered " + text);
            return -1;
        }
        String difference = Sites.of(first).difference(theirs);
        if (difference != null) {
            bad(difference);
            return -1;
        }
        return first.length + 1L;
    }

    /** Seconds for a byte that is read or written, or -1. */
    private double measure(Shape shape, int eighths) throws IOException, InterruptedException {
        byte[] file = shape.bytes(eighths);
        checkFile(shape, file);
        Sites theirs = counter.count(file);
        byte[] line = Lines.line(file);
        write(line, 1);
        if (run() < 0) {
            return -1;
        }
        long answer = answer(1, theirs);
        if (answer < 0) {
            return -1;
        }
        int times = (int) Math.max(1, Math.min(wanted / line.length, MOST_ANSWERS / answer));
        write(line, times);
        double seconds = run();
        // A short run is taken again, and the fastest of three counts.
        for (int again = 0; again < 2 && seconds >= 0 && seconds < SHORT; again++) {
            seconds = Math.min(seconds, run());
        }
        if (seconds < 0 || answer(times, theirs) < 0) {
            return -1;
        }
        System.out.printf(Locale.ROOT, "    %9d %10d %6d %8.2f %10.1f %10.1f", file.length, answer, times, seconds,
                1e-6 * times * file.length / seconds, 1e-6 * times * answer / seconds);
        return seconds / ((double) times * (line.length + answer));
    }

    /** Measures a size and its half once more: only what grows twice isn't the noise of other work. */
    private void again(Shape shape, int eighths) throws IOException, InterruptedException {
        double half = measure(shape, eighths / 2);
        System.out.println("    again");
        double whole = measure(shape, eighths);
        if (half < 0 || whole < 0) {
            return;
        }
        System.out.printf(Locale.ROOT, " %8.2f again%n", whole / half);
        if (whole / half > MOST_GROWTH) {
            bad("the time for a byte grows");
        }
    }

    private void measure(Shape shape) throws IOException, InterruptedException {
        System.out.println(shape.name().toLowerCase(Locale.ROOT) + ": " + shape.says);
        double last = -1;
        for (int eighths : shape == Shape.CALLS ? new int[] {1, 2, 4, 8} : new int[] {4, 8}) {
            double each = measure(shape, eighths);
            if (each < 0) {
                last = -1;
                continue;
            }
            if (last < 0) {
                System.out.println();
            } else {
                System.out.printf(Locale.ROOT, " %8.2f%n", each / last);
                if (each / last > MOST_GROWTH) {
                    again(shape, eighths);
                }
            }
            last = each;
        }
    }

    public static void main(String[] args) throws IOException, InterruptedException, ReflectiveOperationException {
        Growth growth = new Growth(args);
        System.out.println("    file      answer      times  seconds  file MB/s  answer MB/s  growth");
        for (Shape shape : Shape.values()) {
            boolean named = args.length == 5;
            for (int i = 5; i < args.length; i++) {
                named |= shape.name().equalsIgnoreCase(args[i]);
            }
            if (named) {
                growth.measure(shape);
            }
        }
        System.out.println(growth.good ? "all as it must be" : "NOT as it must be");
        System.exit(growth.good ? 0 : 1);
    }
}
