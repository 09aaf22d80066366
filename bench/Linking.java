import java.io.BufferedReader;
import java.io.IOException;
import java.io.InputStreamReader;
import java.io.OutputStream;
import java.io.PrintWriter;
import java.nio.charset.StandardCharsets;
import java.nio.file.Files;
import java.nio.file.Path;
import java.time.Duration;
import java.util.ArrayList;
import java.util.HashMap;
import java.util.List;
import java.util.Map;
import java.util.TreeMap;

/**
 * One run of {@code linkd run} over its pipes: all classes, as many requests as it takes, every link, and what must be
 * so of the answers.
 *
 * <p>The folder has ordered.hex, defines.jsonl (the commands), defined.json (what a run of these alone answered) and
 * answers.json (what {@code linkd scan} answers to ordered.hex); sites.txt is left there, a line for each site.
 */
final class Linking {
    private static final int MOST_SITES = 65_536;
    private static final int BATCH = 256;
    /** Commands that are written before their answers are read: these must fit a pipe. */
    private static final int AHEAD = 500;
    /** How many of each sort are printed. */
    private static final int SHOWN = 10;
    /** Fewer direct and plain links than these tell nothing. */
    private static final int LEAST = 200;
    /** The instructions that are requested: all but the last of {@link Sites#KINDS}. */
    private static final int KINDS = 4;

    private record Place(int caller, int method, int pc, int kind, String of, String name, String type) {
        String reference() {
            return of + "." + name + type;
        }
    }

    private final Path dir;
    private final Family family = new Family();
    // The number of the class of each line, or -1.
    private final List<Integer> numbers = new ArrayList<>();
    private final List<String> definitions = new ArrayList<>();
    private final List<Place> places = new ArrayList<>();
    // By number: the requested places, and the link of each installed site.
    private final List<Place> sites = new ArrayList<>();
    private final Map<Integer, Object> links = new TreeMap<>();
    // Rows of a table to print: how many sites of each kind.
    private final Map<String, int[]> counts = new TreeMap<>();
    private final Map<String, Integer> shown = new HashMap<>();
    private int wrong;

    private Process process;
    private OutputStream commands;
    private BufferedReader answers;
    private double began;
    private double beganCpu;

    Linking(Path dir) {
        this.dir = dir;
    }

    // ---- what is printed

    private void wrong(String what) {
        wrong++;
        show("WRONG", what);
    }

    private void wrongUnless(boolean good, String what) {
        if (!good) {
            wrong(what);
        }
    }

    /** The first few of each sort. */
    private void show(String sort, String what) {
        int before = shown.merge(sort, 1, Integer::sum);
        if (before <= SHOWN) {
            System.out.println("  " + sort + ": " + what.substring(0, Math.min(what.length(), 300)));
        }
    }

    private void count(String row, int kind) {
        counts.computeIfAbsent(row, r -> new int[KINDS])[kind]++;
    }

    private void printCounts() {
        System.out.printf("%-42s", "");
        for (int i = 0; i < KINDS; i++) {
            System.out.printf("%16s", Sites.KINDS[i]);
        }
        System.out.printf("%10s%n", "all");
        for (Map.Entry<String, int[]> row : counts.entrySet()) {
            System.out.printf("%-42s", row.getKey());
            int all = 0;
            for (int count : row.getValue()) {
                System.out.printf("%16d", count);
                all += count;
            }
            System.out.printf("%10d%n", all);
        }
        counts.clear();
    }

    /** The most memory that a process had, or what can be said where the system doesn't tell. */
    static String peak(long pid) throws IOException {
        Path status = Path.of("/proc/" + pid + "/status");
        if (Files.exists(status)) {
            for (String line : Files.readAllLines(status)) {
                if (line.startsWith("VmHWM:")) {
                    return Integer.parseInt(line.replaceAll("\\D", "")) / 1024 + " MB";
                }
            }
        }
        return "not known";
    }

    private double cpu() {
        return process.info().totalCpuDuration().orElse(Duration.ZERO).toMillis() / 1e3;
    }

    private void start() {
        began = System.nanoTime() / 1e9;
        beganCpu = cpu();
    }

    private void stop(String what, int count, String unit) {
        double seconds = System.nanoTime() / 1e9 - began;
        System.out.printf("%s: %.2f s (%.2f s of processor)", what, seconds, cpu() - beganCpu);
        System.out.println(count == 1 ? "" : String.format(", %.0f %s a second", count / seconds, unit));
    }

    // ---- the process

    private void write(byte[] line) throws IOException {
        commands.write(line);
        commands.write('\n');
    }

    private void write(String line) throws IOException {
        write(line.getBytes(StandardCharsets.US_ASCII));
    }

    private String answer() throws IOException {
        String line = answers.readLine();
        if (line == null) {
            throw new IOException("linkd run ended early");
        }
        return line;
    }

    private String ask(String line) throws IOException {
        write(line);
        commands.flush();
        return answer();
    }

    /** The answers to the commands, some of which are written before the first is read. */
    private List<String> askAll(List<String> lines) throws IOException {
        List<String> all = new ArrayList<>();
        for (int from = 0; from < lines.size(); from += AHEAD) {
            int to = Math.min(from + AHEAD, lines.size());
            for (String line : lines.subList(from, to)) {
                write(line);
            }
            commands.flush();
            for (int i = from; i < to; i++) {
                all.add(answer());
            }
        }
        return all;
    }

    // ---- classes

    /** What the run of the definitions alone answered, beside what it had to. */
    private void readDefined() throws IOException {
        definitions.addAll(Files.readAllLines(dir.resolve("defined.json")));
        Map<String, Integer> refused = new TreeMap<>();
        int count = 0;
        try (LineReader lines = new LineReader(dir.resolve("ordered.hex"))) {
            byte[] line;
            while ((line = lines.next()) != null) {
                ClassHead head = ClassHead.of(Lines.bytesOf(line, 0, line.length));
                if (count == definitions.size()) {
                    throw new IOException("fewer answers than definitions");
                }
                String answer = definitions.get(count++);
                String fault = family.refusal(head);
                if (answer.equals("{\"class\":" + family.size() + ",\"dropped\":[]}") && fault == null) {
                    numbers.add(family.size());
                    family.add(head);
                    continue;
                }
                numbers.add(-1);
                Object value = Json.read(answer);
                Object name = Json.get(value, "name");
                String said = Json.get(value, "refused") + (name == null ? "" : " " + name);
                refused.merge(said.split(" ")[0], 1, Integer::sum);
                System.out.println("  refused: " + head.name() + ": " + said);
                wrongUnless(said.equals(fault), "the definition of " + head.name() + " must be "
                        + (fault == null ? "accepted" : "refused: " + fault) + ", and is answered " + answer);
            }
        }
        wrongUnless(count == definitions.size(), "more answers than definitions");
        System.out.println(family.size() + " classes defined, " + (count - family.size()) + " refused " + refused);
    }

    /** The invocations that may be requested, in the order of the lines. */
    private void readPlaces() throws IOException {
        Map<String, String> kept = new HashMap<>();
        try (BufferedReader scanned = Files.newBufferedReader(dir.resolve("answers.json"))) {
            for (int number : numbers) {
                Object value = Json.read(scanned.readLine());
                if (number < 0) {
                    continue;
                }
                ClassHead head = family.head(number);
                List<?> methods = Json.list(Json.get(value, "methods"));
                wrongUnless(head.name().equals(Json.get(value, "class")) && methods.size() == head.methods().size(),
                        "what is scanned of " + head.name());
                for (int method = 0; method < methods.size(); method++) {
                    for (Object site : Json.list(Json.get(methods.get(method), "sites"))) {
                        int kind = Sites.kind((String) Json.get(site, "kind"));
                        if (kind < KINDS) {
                            String[] texts = new String[] {"of", "name", "type"};
                            for (int i = 0; i < texts.length; i++) {
                                String text = (String) Json.get(site, texts[i]);
                                String known = kept.putIfAbsent(text, text);
                                texts[i] = known == null ? text : known;
                            }
                            int pc = Json.number(Json.get(site, "pc"));
                            places.add(new Place(number, method, pc, kind, texts[0], texts[1], texts[2]));
                        }
                    }
                }
            }
        }
    }

    private void define() throws IOException {
        start();
        try (LineReader lines = new LineReader(dir.resolve("defines.jsonl"))) {
            for (int from = 0; from < definitions.size(); from += AHEAD) {
                int to = Math.min(from + AHEAD, definitions.size());
                for (int i = from; i < to; i++) {
                    write(lines.next());
                }
                commands.flush();
                for (int i = from; i < to; i++) {
                    String answer = answer();
                    String before = definitions.get(i);
                    wrongUnless(answer.equals(before), "now it is " + answer + ", and before " + before);
                }
            }
        }
        stop("definitions through a pipe", definitions.size(), "classes");
        System.out.println("peak memory with all classes: " + peak(process.pid()));
    }

    // ---- requests

    private static String refusalOf(Place place) {
        if (place.of().startsWith("[")) {
            return "{\"refused\":\"NotLinkable.ArrayReceiver\"}";
        }
        if (place.of().equals("java/lang/invoke/MethodHandle") || place.of().equals("java/lang/invoke/VarHandle")) {
            return "{\"refused\":\"NotLinkable.PolymorphicSignature\"}";
        }
        return null;
    }

    private static int nextUntried(boolean[] tried, int from) {
        for (int i = 0; i < tried.length; i++) {
            int at = (from + i) % tried.length;
            if (!tried[at]) {
                return at;
            }
        }
        return -1;
    }

    /** Each k-th place, and for each that is refused the next one that wasn't tried yet. */
    private void request() throws IOException {
        int wanted = Math.min(MOST_SITES, places.size());
        boolean[] tried = new boolean[places.size()];
        List<Integer> round = new ArrayList<>();
        for (int i = 0; i < wanted; i++) {
            int at = (int) ((long) i * places.size() / wanted);
            tried[at] = true;
            round.add(at);
        }
        int requests = 0;
        start();
        while (!round.isEmpty()) {
            List<String> lines = new ArrayList<>();
            for (int at : round) {
                Place place = places.get(at);
                lines.add("{\"do\":\"request\",\"class\":" + place.caller() + ",\"method\":" + place.method()
                        + ",\"pc\":" + place.pc() + "}");
            }
            List<String> all = askAll(lines);
            requests += all.size();
            List<Integer> further = new ArrayList<>();
            for (int i = 0; i < all.size(); i++) {
                Place place = places.get(round.get(i));
                String answer = all.get(i);
                String fault = refusalOf(place);
                if (answer.equals("{\"dropped\":[],\"site\":" + sites.size() + "}")) {
                    wrongUnless(fault == null, "a request of " + place.reference() + " must be refused");
                    sites.add(place);
                    count("accepted", place.kind());
                    continue;
                }
                wrongUnless(answer.equals(fault), "a request of " + place.reference() + " is answered " + answer);
                count("refused: " + Json.get(Json.read(answer), "refused"), place.kind());
                int next = nextUntried(tried, round.get(i));
                if (next >= 0) {
                    tried[next] = true;
                    further.add(next);
                }
            }
            round = further;
        }
        stop("requests of " + wanted + " of " + places.size() + " invocations", requests, "requests");
        printCounts();
        wrongUnless(sites.size() == wanted, "only " + sites.size() + " of " + wanted + " requests are accepted");
        writePlaces();
    }

    /** The requested places for {@code bench link}, a line each. */
    private void writePlaces() throws IOException {
        List<String> lines = new ArrayList<>();
        for (Place place : sites) {
            lines.add(place.caller() + " " + place.method() + " " + place.pc());
        }
        Files.write(dir.resolve("places.txt"), lines);
    }

    // ---- links

    private static String batch(List<Integer> numbers) {
        return "{\"do\":\"prepare\",\"sites\":" + numbers.toString().replace(" ", "") + "}";
    }

    private static final String NOT_READY = "Prepare.NotReady";

    /** Prepares and installs every site, in batches; a site that isn't ready is left out of its batch. */
    private void install() throws IOException {
        double preparing = 0;
        double installing = 0;
        double longest = 0;
        int prepared = 0;
        int tries = 0;
        List<Integer> notReady = new ArrayList<>();
        start();
        for (int from = 0; from < sites.size(); from += BATCH) {
            List<Integer> numbers = new ArrayList<>();
            for (int i = from; i < Math.min(from + BATCH, sites.size()); i++) {
                numbers.add(i);
            }
            while (!numbers.isEmpty()) {
                long before = System.nanoTime();
                String answer = ask(batch(numbers));
                double seconds = (System.nanoTime() - before) / 1e9;
                preparing += seconds;
                longest = Math.max(longest, seconds);
                tries++;
                Object value = Json.read(answer);
                if (NOT_READY.equals(Json.get(value, "refused"))) {
                    Integer site = Json.number(Json.get(value, "site"));
                    if (!numbers.remove(site)) {
                        throw new IOException("a site that isn't in the batch: " + answer);
                    }
                    notReady.add(site);
                    continue;
                }
                List<?> rows = Json.list(Json.get(value, "rows"));
                if (Json.number(Json.get(value, "prepared")) != prepared || rows.size() != numbers.size()) {
                    throw new IOException("a preparation is answered " + answer);
                }
                for (int i = 0; i < rows.size(); i++) {
                    List<?> row = Json.list(rows.get(i));
                    wrongUnless(row.size() == 2 && Json.number(row.get(0)) == numbers.get(i), "the row " + row);
                    links.put(numbers.get(i), row.get(1));
                }
                before = System.nanoTime();
                answer = ask("{\"do\":\"install\",\"prepared\":" + prepared + "}");
                installing += (System.nanoTime() - before) / 1e9;
                wrongUnless(answer.equals("{\"dropped\":[]}"), "an install is answered " + answer);
                prepared++;
                numbers.clear();
            }
        }
        stop("prepare and install, with the reading of the answers", links.size(), "sites");
        System.out.printf("prepare %.2f s (%d batches in %d tries, the longest %.3f s), install %.2f s: ",
                preparing, prepared, tries, longest, installing);
        System.out.printf("%.0f sites a second%n", links.size() / (preparing + installing));
        System.out.println("peak memory with all links: " + peak(process.pid()));
        for (int site : notReady) {
            Place place = sites.get(site);
            boolean isThere = family.number(place.of()) >= 0;
            String row = isThere ? "not ready: the named class is there" : "not ready: the named class is missing";
            count(row, place.kind());
            show(row, said(site));
            // Else the host of a nest may be missing.
            wrongUnless(!isThere || numbers.contains(-1), "not ready though all classes are there: " + said(site));
        }
    }

    private String said(int site) {
        Place place = sites.get(site);
        ClassHead caller = family.head(place.caller());
        ClassHead.Method method = caller.methods().get(place.method());
        return "site " + site + ", " + Sites.KINDS[place.kind()] + " " + place.reference() + " in " + caller.name()
                + "." + method.name() + method.type() + " at " + place.pc();
    }

    /** The installed links are those that were prepared, all of them. */
    private void list() throws IOException {
        start();
        Object value = Json.read(ask("{\"do\":\"links\"}"));
        stop("list of links", links.size(), "links");
        List<?> rows = Json.list(Json.get(value, "links"));
        wrongUnless(rows.size() == links.size(), rows.size() + " links listed, " + links.size() + " sites installed");
        int last = -1;
        for (Object each : rows) {
            List<?> row = Json.list(each);
            int site = row.size() == 2 ? Json.number(row.get(0)) : -1;
            wrongUnless(site > last, "the row " + row + " stands after site " + last);
            wrongUnless(site >= 0 && row.get(1).equals(links.get(site)), "what is listed wasn't prepared: " + row);
            last = site;
        }
    }

    /** One more class, below java/lang/Object alone: it changes no link, and each one is compared. */
    private void defineLast() throws IOException {
        start();
        String answer = ask("{\"do\":\"define\",\"loader\":0,"
                + "\"sketch\":{\"name\":\"Last\",\"super\":\"java/lang/Object\",\"flags\":33}}");
        stop("one more class after all links", 1, "");
        wrongUnless(answer.equals("{\"class\":" + family.size() + ",\"dropped\":[]}"), "the last class: " + answer);
    }

    // ---- what must be so of a link

    /** The method that an outcome runs, as the class and its place there, or null. */
    private ClassHead.Method method(Object run) {
        List<?> pair = Json.list(run);
        ClassHead head = pair.size() == 2 ? family.head(Json.number(pair.get(0))) : null;
        int place = pair.size() == 2 ? Json.number(pair.get(1)) : -1;
        return head == null || place < 0 || place >= head.methods().size() ? null : head.methods().get(place);
    }

    private static int classOf(Object run) {
        return Json.number(Json.list(run).get(0));
    }

    /** A method that is run has the name and the descriptor that the invocation names, and a code or native one. */
    private void checkRun(int site, Object run, boolean isStatic) {
        Place place = sites.get(site);
        ClassHead.Method method = method(run);
        wrongUnless(method != null && method.name().equals(place.name()) && method.type().equals(place.type())
                && method.is(ClassHead.STATIC) == isStatic && !method.is(ClassHead.ABSTRACT),
                said(site) + " runs " + run + ", " + method);
    }

    private int related;
    private int elsewhere;
    private final Map<String, Integer> throwing = new TreeMap<>();

    /** The method's class is the named one or above or below it; or, of a default, above a class below it. */
    private void checkClass(int site, int named, Object run) {
        if (method(run) == null) {
            return;
        }
        int of = classOf(run);
        if (family.areRelated(named, of)) {
            related++;
            return;
        }
        boolean isAbove = family.receivers(named).stream().anyMatch(x -> family.isAncestor(of, x));
        wrongUnless(isAbove, said(site) + " runs a method of " + family.head(of).name());
        elsewhere++;
        show("a method from beside the named class", said(site) + " runs that of " + family.head(of).name());
    }

    /** Its row to count, and what must be so of it. */
    private String check(int site, Object link) {
        Place place = sites.get(site);
        int named = family.number(place.of());
        if (named < 0) {
            wrong("a link though the named class isn't there: " + said(site));
            return "wrong";
        }
        List<Integer> receivers = family.receivers(named);
        String kind = Sites.KINDS[place.kind()].substring("invoke".length());
        Object fault = Json.get(link, "fault");
        if (fault != null) {
            show("fault " + fault, said(site));
            return "fault " + fault;
        }
        Object plain = Json.get(link, "plain");
        if (plain != null) {
            wrongUnless(kind.equals("static"), "a plain link: " + said(site));
            checkRun(site, plain, true);
            checkClass(site, named, plain);
            return "plain";
        }
        Object direct = Json.get(link, "direct");
        if (direct != null) {
            wrongUnless(kind.equals("virtual") || kind.equals("special"), "a direct link: " + said(site));
            Object run = Json.get(direct, "run");
            if (run == null) {
                show("direct, throws " + Json.get(direct, "throws"), said(site));
                return "direct, throws " + Json.get(direct, "throws");
            }
            checkRun(site, run, false);
            checkClass(site, named, run);
            boolean isPrivate = method(run) != null && method(run).is(ClassHead.PRIVATE);
            if (isPrivate) {
                return "direct, private";
            }
            if (kind.equals("special")) {
                return "direct";
            }
            wrongUnless(!receivers.isEmpty(), "direct without receivers: " + said(site));
            return receivers.size() > 1 ? "direct, for several classes" : "direct";
        }
        if (Boolean.TRUE.equals(Json.get(link, "mega"))) {
            wrongUnless(kind.equals("virtual") || kind.equals("interface"), "a megamorphic link: " + said(site));
            wrongUnless(receivers.size() > 8, "megamorphic with " + receivers.size() + " receivers: " + said(site));
            return "mega";
        }
        wrongUnless(kind.equals(Json.get(link, "kind")), "the kind of the table: " + said(site));
        List<?> rows = Json.list(Json.get(link, "table"));
        List<Integer> classes = new ArrayList<>();
        for (Object each : rows) {
            int receiver = Json.number(Json.list(each).get(0));
            Object outcome = Json.list(each).get(1);
            classes.add(receiver);
            Object run = Json.get(outcome, "run");
            if (run == null) {
                String thrown = "a row throws " + Json.get(outcome, "throws");
                show(thrown, said(site) + " on " + family.head(receiver).name());
                throwing.merge(thrown, 1, Integer::sum);
            } else {
                checkRun(site, run, false);
                wrongUnless(family.isAncestor(classOf(run), receiver), "no ancestor's: " + said(site) + ", " + each);
            }
        }
        wrongUnless(classes.equals(receivers), "the receivers of " + said(site) + ": " + classes + " for " + receivers);
        return "table of " + classes.size();
    }

    private void checkLinks() throws IOException {
        try (PrintWriter lines = new PrintWriter(Files.newBufferedWriter(dir.resolve("sites.txt")))) {
            for (int site = 0; site < sites.size(); site++) {
                Object link = links.get(site);
                lines.println(said(site) + ": " + (link == null ? "not ready" : link));
                if (link != null) {
                    count(check(site, link), sites.get(site).kind());
                }
            }
        }
        printCounts();
        System.out.println("of all rows of tables: " + throwing);
        System.out.println(related + " of " + (related + elsewhere) + " direct and plain links run a method of the "
                + "named class, of an ancestor or of a class below it");
        wrongUnless(related + elsewhere >= LEAST, "too few direct and plain links to tell");
    }

    /** Whether all is as it must be. */
    boolean run(String program) throws IOException, InterruptedException {
        readDefined();
        readPlaces();
        process = new ProcessBuilder(program, "run").redirectError(ProcessBuilder.Redirect.INHERIT).start();
        commands = process.getOutputStream();
        answers = new BufferedReader(new InputStreamReader(process.getInputStream(), StandardCharsets.UTF_8));
        try {
            define();
            request();
            install();
            list();
            defineLast();
            System.out.println("peak memory with their list: " + peak(process.pid()));
            commands.close();
            wrongUnless(answers.readLine() == null, "an answer too many");
            int status = process.waitFor();
            wrongUnless(status == 0, "linkd run ends with status " + status);
        } finally {
            process.destroyForcibly();
        }
        checkLinks();
        if (wrong > 0) {
            System.out.println(wrong + " things are wrong");
        }
        return wrong == 0;
    }
}
