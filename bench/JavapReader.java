import java.io.IOException;
import java.io.PrintWriter;
import java.io.StringWriter;
import java.nio.file.Files;
import java.nio.file.Path;
import java.util.regex.Matcher;
import java.util.regex.Pattern;
import java.util.spi.ToolProvider;
import java.util.zip.CRC32;

/** Counts the invocations that {@code javap -c -p} prints, with their pcs. */
final class JavapReader implements ClassCounter {
    /** An instruction's line: its pc and its name, which no other line of javap looks like. */
    private static final Pattern INVOCATION = Pattern.compile("^ +([0-9]+): (invoke[a-z]+) ");

    private final ToolProvider javap = ToolProvider.findFirst("javap").orElseThrow();
    private final Path file;

    JavapReader() throws IOException {
        file = Files.createTempFile("javap", ".class");
        file.toFile().deleteOnExit();
    }

    @Override
    public Sites count(byte[] bytes) throws IOException {
        Files.write(file, bytes);
        StringWriter text = new StringWriter();
        PrintWriter out = new PrintWriter(text);
        int status = javap.run(out, out, "-c", "-p", file.toString());
        out.flush();
        if (status != 0 && !isWhole(text.toString())) {
            throw new IOException("javap ends with " + status + ": " + text.toString().lines().limit(5).toList());
        }
        Sites sites = new Sites();
        CRC32 pcs = new CRC32();
        text.toString().lines().forEach(line -> {
            Matcher matcher = INVOCATION.matcher(line);
            if (matcher.find()) {
                int kind = Sites.kind(matcher.group(2));
                sites.counts[kind]++;
                Sites.add(pcs, kind, Integer.parseInt(matcher.group(1)));
            }
        });
        sites.pcs = pcs.getValue();
        return sites;
    }

    /**
     * Whether all was printed in spite of the status: newer javaps call flags an error that a class can't have, as some
     * classes that are made with the JDK do, and go on.
     */
    private static boolean isWhole(String text) {
        boolean ends = text.stripTrailing().endsWith("\n}");
        return ends && text.replace("Error: Access Flags:", "").lines().noneMatch(l -> l.startsWith("Error:"));
    }
}
