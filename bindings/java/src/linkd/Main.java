package linkd;

import java.io.IOException;
import java.io.PrintStream;
import java.io.UncheckedIOException;
import java.nio.file.Files;
import java.nio.file.NoSuchFileException;
import java.nio.file.Path;
import java.util.ArrayList;
import java.util.HashMap;
import java.util.HashSet;
import java.util.LinkedHashMap;
import java.util.List;
import java.util.Locale;
import java.util.Map;
import java.util.Optional;
import java.util.Set;
import java.util.stream.Stream;

/**
 * Links all invocations of some class files, and tells how many have a link of which form.
 *
 * <p>{@code java linkd.Main PATH..}, where a path is that of a class file or of a folder with class files in it. What they name beside each
 * other is taken from the JDK that runs this, where that has it. Class files are taken up to those of Java 25, so this JDK is one up to 25
 * ({@link Linker#defineUpTo}).
 */
public final class Main {
    private static final int BATCH = 256;
    private static final String[] FORMS = {"one method", "throws", "table", "megamorphic", "no link", "refused"};

    private final Linker linker;
    /** The files that were handed in, by the names of their classes. */
    private final Map<String, byte[]> given = new LinkedHashMap<>();
    private final Set<String> tried = new HashSet<>();
    private final Map<String, ClassId> defined = new HashMap<>();
    private final int[][] counts = new int[FORMS.length][Instruction.values().length];

    /**
     * A requested invocation.
     *
     * @param id its site
     * @param instruction what invokes there
     */
    private record Requested(SiteId id, Instruction instruction) {
    }

    private Main(Linker linker) {
        this.linker = linker;
    }

    /** A fault of what was handed in. */
    private static final class BadInput extends RuntimeException {
        private static final long serialVersionUID = 1L;

        BadInput(String what) {
            super(what);
        }
    }

    /** The class files of a path. */
    private static List<Path> files(Path path) throws IOException {
        if (!Files.isDirectory(path)) {
            return List.of(path);
        }
        try (Stream<Path> all = Files.walk(path)) {
            return all.filter(file -> file.toString().endsWith(".class") && !file.endsWith("module-info.class")).sorted().toList();
        }
    }

    /** Whether it is a class file is asked of a linker of its own, so that it is read only where it is one. */
    private void read(Path path) throws IOException {
        byte[] file = Files.readAllBytes(path);
        try (Linker reader = Linker.open(1)) {
            reader.defineUpTo(LoaderId.FIRST, Linker.NEWEST_KNOWN, file);
        } catch (RefusedException refused) {
            if (refused.refusal() instanceof Refusal.NoClassFile) {
                throw new BadInput(path + ": " + refused.getMessage());
            }
        }
        given.putIfAbsent(ClassFile.of(file).name(), file);
    }

    /** The class's file: of those that were handed in, or else of the JDK; null where neither has it. */
    private byte[] find(String name) {
        byte[] file = given.get(name);
        return file == null ? ClassFiles.of(name).orElse(null) : file;
    }

    /** Defines the class after its parents, where it is found. A class of the JDK may be refused; then what wants it has no link. */
    private void define(String name) {
        byte[] file = tried.add(name) ? find(name) : null;
        if (file == null) {
            return;
        }
        for (String parent : ClassFile.of(file).parents()) {
            define(parent);
        }
        try {
            defined.put(name, linker.defineUpTo(LoaderId.FIRST, Linker.NEWEST_KNOWN, file));
        } catch (RefusedException refused) {
            if (given.containsKey(name)) {
                throw new BadInput(name + ": " + refused.getMessage());
            }
        }
    }

    private void count(int form, Instruction instruction) {
        counts[form][instruction.ordinal()]++;
    }

    /** Requests an invocation, if it isn't refused. */
    private Optional<SiteId> request(ClassId type, Invocation at) {
        try {
            return Optional.of(linker.request(type, at.method(), at.pc()));
        } catch (RefusedException refused) {
            count(5, at.instruction());
            return Optional.empty();
        }
    }

    /** Defines what the site waits for, the class that it names and nest hosts, as far as that is found. */
    private void defineAwaited(SiteId site) {
        Optional<String> name = linker.awaitedClass(site);
        while (name.isPresent() && !tried.contains(name.get())) {
            define(name.get());
            name = linker.awaitedClass(site);
        }
    }

    /** Requests all invocations of the classes that were handed in, and defines what they wait for. */
    private List<Requested> requestAll() {
        List<Requested> sites = new ArrayList<>();
        for (String name : given.keySet()) {
            ClassId type = defined.get(name);
            for (Invocation at : linker.invocations(type).orElseThrow()) {
                request(type, at).ifPresent(site -> sites.add(new Requested(site, at.instruction())));
            }
        }
        sites.forEach(site -> defineAwaited(site.id()));
        return sites;
    }

    private static int form(Link link) {
        return switch (link) {
            case Link.Plain plain -> 0;
            case Link.Direct direct -> direct.outcome() instanceof Answer.Run ? 0 : 1;
            case Link.Fault fault -> 1;
            case Link.Table table -> 2;
            case Link.Megamorphic all -> 3;
        };
    }

    private void linkAll(List<Requested> sites) {
        for (int from = 0; from < sites.size(); from += BATCH) {
            List<Requested> batch = sites.subList(from, Math.min(from + BATCH, sites.size()));
            Map<SiteId, Link> links = linker.installReady(batch.stream().map(Requested::id).toList());
            for (Requested site : batch) {
                count(Optional.ofNullable(links.get(site.id())).map(Main::form).orElse(4), site.instruction());
            }
        }
    }

    private void tell(PrintStream to) {
        to.printf("%-12s", "");
        for (Instruction instruction : Instruction.values()) {
            to.printf(" %16s", instruction.name().toLowerCase(Locale.ROOT));
        }
        to.printf(" %8s%n", "all");
        for (int form = 0; form < FORMS.length; form++) {
            int all = 0;
            to.printf("%-12s", FORMS[form]);
            for (int count : counts[form]) {
                to.printf(" %16d", count);
                all += count;
            }
            to.printf(" %8d%n", all);
        }
    }

    private static void run(String[] words) throws IOException {
        try (Linker linker = Linker.open(Ids.MOST)) {
            Main main = new Main(linker);
            for (String word : words) {
                for (Path path : files(Path.of(word))) {
                    main.read(path);
                }
            }
            for (String name : main.given.keySet()) {
                main.define(name);
            }
            List<Requested> sites = main.requestAll();
            System.out.printf("%d classes handed in, %d defined in all%n", main.given.size(), main.defined.size());
            main.linkAll(sites);
            main.tell(System.out);
        }
    }

    /** Ends with status 1 where a path, a class file or the library isn't as it must be, and says how. */
    public static void main(String[] words) {
        if (words.length == 0) {
            System.err.println("linkd: PATH..");
            System.exit(2);
        }
        try {
            run(words);
        } catch (NoSuchFileException fault) {
            stop("there is no " + fault.getFile());
        } catch (IOException | UncheckedIOException | BadInput | RefusedException | MissingLibraryException fault) {
            stop(fault.getMessage());
        }
    }

    private static void stop(String why) {
        System.err.println("linkd: " + why);
        System.exit(1);
    }
}
