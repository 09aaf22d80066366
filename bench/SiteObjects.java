import java.io.IOException;
import java.lang.management.ManagementFactory;
import java.nio.charset.StandardCharsets;
import java.nio.file.Files;
import java.nio.file.Path;
import java.util.ArrayList;
import java.util.Arrays;
import java.util.HashMap;
import java.util.List;
import java.util.Locale;
import java.util.Map;

/**
 * What a plain program takes to keep an object for each site, and a link in it.
 *
 * <p>{@code SiteObjects INPUT LINKS} reads the places of INPUT, as {@code bench link} takes them, and the line that whole.c wrote into
 * LINKS for each. Then it puts an object for each site into a hash map, under its place, and gives it its link, one object for all that are
 * equal. It only keeps links, which linkd has found: it computes none, takes no event, and knows of no class which links rest on it.
 */
final class SiteObjects {
    private static final int ROUNDS = 5;

    private enum Kind { NONE, FAULT, PLAIN, DIRECT, VIRTUAL, INTERFACE, MEGA }

    private record Place(int caller, int method, int pc) {}

    private record Row(int receiver, int outcome, int of, int value) {}

    private record Link(Kind kind, List<Row> rows) {}

    private static final class Site {
        final int number;
        Link link;

        Site(int number) {
            this.number = number;
        }
    }

    // What was read of each place: its numbers, and its kind with the numbers of the link, or null where it is never linked.
    private final List<int[]> places = new ArrayList<>();
    private final List<int[]> links = new ArrayList<>();

    private Map<Place, Site> sites;
    private Map<Link, Link> shared;

    // ---- reading

    private static int[] numbers(String[] words, int from) {
        return Arrays.stream(words, from, words.length).mapToInt(Integer::parseInt).toArray();
    }

    private static int[] told(String line) {
        String[] words = line.split(" ");
        if (words[0].equals("refused")) {
            return null;
        }
        String kind = words[0].toUpperCase(Locale.ROOT);
        words[0] = String.valueOf(Kind.valueOf(kind).ordinal());
        return numbers(words, 0);
    }

    private SiteObjects(Path input, Path told) throws IOException {
        try (LineReader lines = new LineReader(input)) {
            byte[] line;
            while ((line = lines.next()) != null) {
                String text = line.length < 40 ? new String(line, StandardCharsets.US_ASCII) : "";
                if (text.contains(" ")) {
                    places.add(numbers(text.split(" "), 0));
                }
            }
        }
        Files.readAllLines(told).forEach(line -> links.add(told(line)));
        if (links.size() != places.size()) {
            throw new IOException(links.size() + " links of " + places.size() + " places");
        }
    }

    // ---- keeping

    private Place place(int at) {
        int[] numbers = places.get(at);
        return new Place(numbers[0], numbers[1], numbers[2]);
    }

    private Link link(int at) {
        int[] numbers = links.get(at);
        List<Row> rows = new ArrayList<>();
        for (int from = 1; from + 3 < numbers.length; from += 4) {
            rows.add(new Row(numbers[from], numbers[from + 1], numbers[from + 2], numbers[from + 3]));
        }
        return new Link(Kind.values()[numbers[0]], List.copyOf(rows));
    }

    private void request() {
        sites = new HashMap<>();
        for (int at = 0; at < places.size(); at++) {
            if (links.get(at) != null) {
                sites.put(place(at), new Site(sites.size()));
            }
        }
    }

    private void install() {
        shared = new HashMap<>();
        for (int at = 0; at < places.size(); at++) {
            if (links.get(at) != null && links.get(at)[0] != Kind.NONE.ordinal()) {
                sites.get(place(at)).link = shared.computeIfAbsent(link(at), made -> made);
            }
        }
    }

    // ---- what it takes

    private static double seconds(Runnable step) {
        long start = System.nanoTime();
        step.run();
        return (System.nanoTime() - start) / 1e9;
    }

    private static void tell(String what, int count, double[] seconds) {
        double first = seconds[0];
        Arrays.sort(seconds);
        System.out.printf("%s %d: %.3f s the first time, %.3f s the middle of %d%n", what, count, first, seconds[ROUNDS / 2], ROUNDS);
    }

    private static long usedHeap() {
        System.gc();
        return ManagementFactory.getMemoryMXBean().getHeapMemoryUsage().getUsed();
    }

    private void measure() {
        long before = usedHeap();
        double[] requesting = new double[ROUNDS];
        double[] installing = new double[ROUNDS];
        for (int round = 0; round < ROUNDS; round++) {
            requesting[round] = seconds(this::request);
            installing[round] = seconds(this::install);
        }
        long requested = sites.values().stream().filter(site -> site.link == null).count();
        tell("sites", sites.size(), requesting);
        tell("links", Math.toIntExact(sites.size() - requested), installing);
        long bytes = usedHeap() - before;
        System.out.printf("%d link objects; used heap after a full collection: %.1f MB more, %.0f bytes a site%n",
                shared.size(), bytes / 1e6, (double) bytes / sites.size());
    }

    /** How many links there are of each kind, as whole.c counts them. */
    private void count() {
        int[] counts = new int[Kind.values().length];
        for (int at = 0; at < places.size(); at++) {
            Site site = sites.get(place(at));
            if (site != null) {
                counts[(site.link == null ? Kind.NONE : site.link.kind()).ordinal()]++;
            }
        }
        for (Kind kind : Kind.values()) {
            System.out.println(kind.name().toLowerCase(Locale.ROOT) + " " + counts[kind.ordinal()]);
        }
    }

    public static void main(String[] words) throws IOException {
        SiteObjects all = new SiteObjects(Path.of(words[0]), Path.of(words[1]));
        all.measure();
        all.count();
    }
}
