package linkd;

import static java.lang.foreign.ValueLayout.JAVA_INT;
import static java.lang.foreign.ValueLayout.JAVA_LONG;

import java.lang.foreign.Arena;
import java.lang.foreign.MemorySegment;
import java.lang.foreign.ValueLayout;
import java.nio.charset.StandardCharsets;
import java.util.ArrayList;
import java.util.Arrays;
import java.util.Collection;
import java.util.List;
import java.util.Map;
import java.util.Optional;
import java.util.function.Function;
import java.util.function.ToIntFunction;

/**
 * Which method does this JVM call run, now? A linker of include/linkd.h.
 *
 * <p>Many threads may use it, one at a time: each call holds the linker's monitor. Who wants to keep several calls together, as an event
 * and {@link #dropped}, holds it around them. Threads that read links often have a {@link Seat} each, and a {@link Memo} for megamorphic
 * links; those that compile have a {@link View}.
 *
 * <p>What is refused throws a {@link RefusedException}, which says why, and changes nothing; a closed linker refuses all.
 */
public final class Linker implements AutoCloseable {
    /** The newest major version of class files of SE 17 (JVMS SE 17 §4.1), and so the newest one that {@link #define(byte[])} takes. */
    public static final int NEWEST_OF_17 = 61;

    /**
     * The newest major version of class files of which it is known how they are read: that of Java 25. The editions of the specification
     * from SE 17 to SE 25 say the same of all that is read. It isn't claimed that a JVM of SE 17 would take such a file.
     */
    public static final int NEWEST_KNOWN = 69;

    private final MemorySegment at;
    private final MemorySegment told;
    private final MemorySegment answer;
    private final MemorySegment link;
    private final MemorySegment length;
    private boolean open = true;

    /** The memory is the collector's, which costs a call nothing; what the library keeps besides goes by {@link #close}. */
    private Linker(Arena arena) {
        at = Native.linker(arena);
        told = arena.allocate(JAVA_INT, Native.TOLD);
        answer = arena.allocate(JAVA_INT, Native.ANSWER);
        link = arena.allocate(JAVA_INT, Native.LINK);
        length = arena.allocate(JAVA_LONG);
    }

    /**
     * A linker without classes, in which at most so many sites may be requested. There may be 1,048,576 loaders, classes, call sites and
     * switch points.
     *
     * @param maxSites 1 to 1,048,576, or else this is {@link Refusal.Plain#MALFORMED}
     */
    public static Linker open(int maxSites) {
        return opened(at -> Native.open(at, maxSites));
    }

    /** A linker without classes, which gives at most so many numbers of each kind. {@link Refusal.Plain#MALFORMED} where it can't. */
    public static Linker open(Limits limits) {
        return opened(at -> Native.openWith(at, limits.sites(), limits.loaders(), limits.classes(), limits.callSites(), limits.points()));
    }

    /** One that the call opens. */
    private static Linker opened(ToIntFunction<MemorySegment> open) {
        Library.open(); // throws by name where the library isn't there
        Linker linker = new Linker(Arena.ofAuto());
        try {
            Numbers.done(open.applyAsInt(linker.at));
            return linker;
        } catch (RefusedException refused) {
            linker.close();
            throw refused;
        }
    }

    /** Lets all go that the linker has. Its seats, memos and views go on answering by what they have. */
    @Override
    public synchronized void close() {
        if (open) {
            open = false;
            Native.close(at);
        }
    }

    /** The linker, for a call that holds its monitor. */
    MemorySegment at() {
        if (!open) {
            throw new RefusedException(Refusal.Plain.CLOSED);
        }
        return at;
    }

    private int made(int status) {
        Numbers.done(status, told);
        return Numbers.number(told);
    }

    private static MemorySegment copied(Arena call, byte[] bytes) {
        return call.allocateFrom(ValueLayout.JAVA_BYTE, bytes);
    }

    /** A call that writes into an array as much as has room there, and tells the length that is wanted. */
    private interface Copy {
        int into(MemorySegment out);
    }

    /** What a call writes, of items of so many bytes, as it is read. None where the call tells of nothing. */
    private <T> Optional<T> written(int size, Copy call, Function<MemorySegment, T> read) {
        try (Arena arena = Arena.ofConfined()) {
            MemorySegment out = arena.allocate(0, Integer.BYTES);
            int status = call.into(out);
            if (status == Native.TOO_SHORT) {
                out = arena.allocate(size * length.get(JAVA_LONG, 0), Integer.BYTES);
                status = call.into(out);
            }
            return status == Native.DONE ? Optional.of(read.apply(out)) : Optional.empty();
        }
    }

    private Optional<String> name(Copy call) {
        return written(Byte.BYTES, call, out -> Names.text(out.toArray(ValueLayout.JAVA_BYTE)));
    }

    /** A loader more. */
    public synchronized LoaderId newLoader() {
        return new LoaderId(made(Native.newLoader(at(), told)));
    }

    /** Defines a class in the first loader, by {@link #define(LoaderId, byte[])}. */
    public ClassId define(byte[] file) {
        return define(LoaderId.FIRST, file);
    }

    /**
     * Defines a class, after its parents: {@link Refusal.DefineFault#MISSING_PARENT} is no end, and {@link #refusedName} names the parent. The
     * major version of its file is 45 to {@link #NEWEST_OF_17}.
     */
    public synchronized ClassId define(LoaderId loader, byte[] file) {
        MemorySegment open = at();
        try (Arena call = Arena.ofConfined()) {
            return new ClassId(made(Native.define(open, loader.number(), copied(call, file), told)));
        }
    }

    /**
     * As {@link #define(LoaderId, byte[])}, but the major version is 45 to the newest one. A file of a version above {@link #NEWEST_OF_17}
     * is read as one of 61.0 is, and linked as SE 17 says. With {@link #NEWEST_KNOWN} files up to Java 25's are taken; of later ones nothing
     * is known.
     *
     * @param newest 0 to 65,535, or else this is {@link Refusal.Plain#MALFORMED}
     */
    public synchronized ClassId defineUpTo(LoaderId loader, int newest, byte[] file) {
        MemorySegment open = at();
        if (newest != (char) newest) {
            throw new RefusedException(Refusal.Plain.MALFORMED);
        }
        try (Arena call = Arena.ofConfined()) {
            return new ClassId(made(Native.defineUpTo(open, loader.number(), (char) newest, copied(call, file), told)));
        }
    }

    /** The loader finds under the name, such as java/lang/String, the class that the other finds. */
    public synchronized void delegate(LoaderId loader, String name, LoaderId to) {
        MemorySegment open = at();
        try (Arena call = Arena.ofConfined()) {
            made(Native.delegate(open, loader.number(), copied(call, Names.bytes(name)), to.number(), told));
        }
    }

    /** Requests the invocation at the pc of the class's method, by its place among those that the class declares. */
    public synchronized SiteId request(ClassId type, int method, int pc) {
        return new SiteId(made(Native.request(at(), type.number(), method, pc, told)));
    }

    /** A call site of this type, a method descriptor. */
    public synchronized CallSiteId newCallSite(CallSiteKind kind, String descriptor, Target target) {
        MemorySegment open = at();
        try (Arena call = Arena.ofConfined()) {
            MemorySegment type = copied(call, Names.bytes(descriptor));
            MemorySegment parts = call.allocateFrom(JAVA_INT, target.parts().toArray());
            return new CallSiteId(made(Native.newCallSite(open, kind.number(), type, parts, told)));
        }
    }

    /** The call site has this target from now on. */
    public synchronized void setTarget(CallSiteId callSite, Target target) {
        MemorySegment open = at();
        try (Arena call = Arena.ofConfined()) {
            MemorySegment parts = call.allocateFrom(JAVA_INT, target.parts().toArray());
            made(Native.setTarget(open, callSite.number(), parts, told));
        }
    }

    /** A switch point, which is valid. */
    public synchronized SwitchId newSwitch() {
        return new SwitchId(made(Native.newSwitch(at(), told)));
    }

    /** The switch points are invalid for good. */
    public synchronized void invalidate(Collection<SwitchId> points) {
        MemorySegment open = at();
        int[] numbers = points.stream().mapToInt(SwitchId::number).toArray();
        try (Arena call = Arena.ofConfined()) {
            made(Native.invalidate(open, call.allocateFrom(JAVA_INT, numbers), numbers.length, told));
        }
    }

    /** The site, an invokedynamic, runs what the call site runs. */
    public synchronized void bind(SiteId site, CallSiteId callSite) {
        made(Native.bind(at(), site.number(), callSite.number(), told));
    }

    /** The loader goes, with its classes and the sites in them. */
    public synchronized void retire(LoaderId loader) {
        made(Native.retire(at(), loader.number(), told));
    }

    /**
     * The loaders go at once, with their classes and the sites in them: all or none. Only what stays holds one, so loaders that record each
     * other go. One that comes twice goes once; where there are none nothing changes.
     *
     * <p>Refused as {@link Refusal.RetireAll}, of the first that can't go.
     */
    public synchronized void retireAll(Collection<LoaderId> loaders) {
        MemorySegment open = at();
        int[] numbers = loaders.stream().mapToInt(LoaderId::number).toArray();
        try (Arena call = Arena.ofConfined()) {
            Numbers.allRetired(Native.retireAll(open, call.allocateFrom(JAVA_INT, numbers), numbers.length, told), told);
        }
    }

    /**
     * The call sites and the switch points go at once: all or none. A site that is bound to one of these call sites is
     * {@link Answer.Want#GONE}, and what their targets name holds no loader any more. Only what stays holds one, so call sites that invoke each
     * other go. One that comes twice goes once; where there are none nothing changes.
     *
     * <p>Refused as {@link Refusal.Release}.
     */
    public synchronized void release(Collection<CallSiteId> callSites, Collection<SwitchId> points) {
        MemorySegment open = at();
        int[] sites = callSites.stream().mapToInt(CallSiteId::number).toArray();
        int[] switches = points.stream().mapToInt(SwitchId::number).toArray();
        try (Arena call = Arena.ofConfined()) {
            made(Native.release(open, call.allocateFrom(JAVA_INT, sites), sites.length, call.allocateFrom(JAVA_INT, switches), switches.length,
                    told));
        }
    }

    /** Links the sites from scratch, 1 to 256 of them: all or none. */
    public synchronized void install(Collection<SiteId> sites) {
        MemorySegment open = at();
        int[] numbers = sites.stream().mapToInt(SiteId::number).toArray();
        try (Arena call = Arena.ofConfined()) {
            made(Native.install(open, call.allocateFrom(JAVA_INT, numbers), numbers.length, told));
        }
    }

    /**
     * Installs these links, of 1 to 256 sites: all or none. Each has to be its site's link from scratch now, wherever and whenever it was
     * looked up, as in a {@link View}.
     *
     * <p>Refused in this order: {@link Refusal.Plain#MALFORMED}, where a plain link throws, or a table has more than eight rows;
     * {@link Refusal.Plain#BATCH_SIZE}; {@link Refusal.SiteFault#UNKNOWN_SITE} or {@link Refusal.SiteFault#REPEATED} of the first site that
     * wasn't requested or comes a second time; {@link Refusal.Stale} of the first site whose link is another one now, or
     * {@link Refusal.SiteFault#NOT_READY} of the first site that has none, whichever of the two comes first.
     */
    public synchronized void installLinks(Collection<SiteLink> links) {
        MemorySegment open = at();
        try (Arena call = Arena.ofConfined()) {
            MemorySegment rows = call.allocate(JAVA_INT, (long) links.size() * Native.LINK_ROW);
            int count = 0;
            for (SiteLink row : links) {
                Numbers.write(row, rows, count++);
            }
            int status = Native.installLinks(open, rows, count, told, link);
            if (status == Native.STALE) {
                throw new RefusedException(new Refusal.Stale(new SiteId(Numbers.place(told)), Numbers.link(link).orElseThrow()));
            }
            made(status);
        }
    }

    /**
     * Requests the invocation as {@link #request} does, and installs its link unless there is one: this one call links an invocation that is
     * met. What refuses the request is thrown. What refuses the install stands beside the site: where it is
     * {@link Refusal.SiteFault#NOT_READY}, {@link #awaitedClass} names the class for which the site waits.
     */
    public synchronized Linked link(ClassId type, int method, int pc) {
        MemorySegment open = at();
        link.set(JAVA_INT, 0, Native.UNWRITTEN);
        return Numbers.linked(Native.linkPlace(open, type.number(), method, pc, link, told), told, link);
    }

    /**
     * Links from scratch those of the sites that have a link now, at most 256 of them, and installs these links: all or none. Gives them by
     * their sites, in the order of the sites. The others are passed over: sites that have no link now, and ids under which nothing was
     * requested. They may come more than once. Where all are passed over there is no event.
     *
     * <p>Refused with {@link Refusal.Plain#BATCH_SIZE}, where more than 256 of the sites have a link, and with
     * {@link Refusal.SiteFault#REPEATED} of the first site that has a link and comes a second time.
     */
    public synchronized Map<SiteId, Link> installReady(Collection<SiteId> sites) {
        MemorySegment open = at();
        int[] numbers = sites.stream().mapToInt(SiteId::number).toArray();
        try (Arena call = Arena.ofConfined()) {
            MemorySegment links = call.allocate(JAVA_INT, (long) numbers.length * Native.LINK);
            Numbers.done(Native.installReady(open, call.allocateFrom(JAVA_INT, numbers), numbers.length, links, told), told);
            return Numbers.links(numbers, links);
        }
    }

    /**
     * Returns where the bytes are a class file whose major version is 45 to the newest one, as {@link #defineUpTo} reads them, which asks for
     * more. So a program that reads a class itself before it defines it calls this first. Nothing is defined.
     *
     * <p>Refused as {@link Refusal.NoClassFile} or {@link Refusal.Plain#MEMORY}.
     *
     * @param newest 0 to 65,535, or else this is {@link Refusal.Plain#MALFORMED}
     */
    public synchronized void check(int newest, byte[] file) {
        MemorySegment open = at();
        if (newest != (char) newest) {
            throw new RefusedException(Refusal.Plain.MALFORMED);
        }
        try (Arena call = Arena.ofConfined()) {
            Numbers.done(Native.check(open, (char) newest, copied(call, file), told), told);
        }
    }

    /** The sites, rising, whose links the last accepted event removed. */
    public synchronized List<SiteId> dropped() {
        MemorySegment open = at();
        Optional<int[]> numbers = written(Integer.BYTES, out -> Native.dropped(open, out, length), out -> out.toArray(JAVA_INT));
        return Arrays.stream(numbers.orElseThrow()).mapToObj(SiteId::new).toList();
    }

    /**
     * How many selections, special searches and evaluations of call sites the last accepted event took: what it cost beside the sites that
     * it dropped.
     */
    public synchronized long lastWork() {
        MemorySegment open = at();
        try (Arena call = Arena.ofConfined()) {
            MemorySegment work = call.allocate(JAVA_LONG);
            Numbers.done(Native.lastWork(open, work));
            return work.get(JAVA_LONG, 0);
        }
    }

    /**
     * Does the last event in the second of the two instances of all that the linker keeps, where it isn't done there, so that the next event
     * doesn't pay for it: for when a program waits. No later call is answered otherwise.
     */
    public synchronized void catchUp() {
        Numbers.done(Native.catchUp(at()));
    }

    /** What a call on null, or without a receiver, comes to now, linked or not. */
    public Answer call(SiteId site) {
        return call(site.number(), Native.NULL);
    }

    /** What a call on an object of the class comes to now, linked or not. */
    public Answer call(SiteId site, ClassId receiver) {
        return call(site.number(), receiver.number());
    }

    private synchronized Answer call(int site, int receiver) {
        Numbers.done(Native.call(at(), site, receiver, answer));
        return Numbers.answer(answer).orElseThrow();
    }

    /** As {@link #select(ClassId, int, ClassId)}, on null or without a receiver. */
    public Answer select(ClassId type, int method) {
        return select(type, method, Native.NULL);
    }

    /**
     * What a call of the method comes to on an object of the receiver's class, where no code makes it, as by reflection, a method handle or
     * native code. A static method and an instance initialization method are called themselves; of others one is selected by the receiver
     * (JVMS SE 17 §5.4.6), as by an invokevirtual or, where the class is an interface, an invokeinterface (§6.5).
     *
     * <p>Refused as {@link Refusal.Plain#NO_SUCH_PLACE}, where there is no such class or method, or the class is retired.
     */
    public Answer select(ClassId type, int method, ClassId receiver) {
        return select(type, method, receiver.number());
    }

    private synchronized Answer select(ClassId type, int method, int receiver) {
        Numbers.done(Native.select(at(), type.number(), method, receiver, answer));
        return Numbers.answer(answer).orElseThrow();
    }

    /**
     * What a reference to the method of this name and descriptor in the class that is named resolves to for the class it stands in (JVMS SE 17
     * §5.4.3.3, where an interface is named §5.4.3.4; access: §5.4.4). It looks at no instruction: whether the method is static the program
     * has to see. Methods of java/lang/invoke/MethodHandle and VarHandle are found as those of any class.
     *
     * <p>Refused as {@link Refusal.Plain#UNKNOWN_CLASS}, where one of the two was never defined or is retired.
     */
    public synchronized Resolution resolve(ClassId from, ClassId named, String name, String descriptor) {
        MemorySegment open = at();
        try (Arena call = Arena.ofConfined()) {
            MemorySegment resolution = call.allocate(JAVA_INT, Native.RESOLUTION);
            Numbers.done(Native.resolve(open, from.number(), named.number(), copied(call, Names.bytes(name)),
                    copied(call, Names.bytes(descriptor)), resolution));
            return Numbers.resolution(resolution);
        }
    }

    /**
     * Whether the class is accessible to the first one (JVMS SE 17 §5.4.4), as for new, checkcast and fields.
     *
     * <p>Refused as {@link Refusal.Plain#UNKNOWN_CLASS}, where one of the two was never defined or is retired.
     */
    public synchronized boolean classAccessible(ClassId from, ClassId type) {
        MemorySegment open = at();
        try (Arena call = Arena.ofConfined()) {
            MemorySegment accessible = call.allocate(JAVA_INT);
            Numbers.done(Native.classAccessible(open, from.number(), type.number(), accessible));
            return accessible.get(JAVA_INT, 0) == 1;
        }
    }

    /** The link that is installed at the site, if there is one. */
    public synchronized Optional<Link> linkOf(SiteId site) {
        Numbers.done(Native.linkOf(at(), site.number(), link));
        return Numbers.link(link);
    }

    /**
     * The class that the loader finds under the name, such as java/lang/String (JVMS SE 17 §5.3): one that it has defined or was delegated.
     * None too where the loader was never made, or is retired.
     */
    public synchronized Optional<ClassId> lookup(LoaderId loader, String name) {
        MemorySegment open = at();
        try (Arena call = Arena.ofConfined()) {
            MemorySegment found = call.allocate(JAVA_INT);
            int status = Native.lookup(open, loader.number(), copied(call, Names.bytes(name)), found);
            return status == Native.DONE ? Optional.of(new ClassId(found.get(JAVA_INT, 0))) : Optional.empty();
        }
    }

    /** The name of the class as its file has it (JVMS SE 17 §4.2.1), be the class retired or not. */
    public synchronized Optional<String> className(ClassId type) {
        MemorySegment open = at();
        return name(out -> Native.className(open, type.number(), out, length));
    }

    /**
     * The name of the method (JVMS SE 17 §4.2.2) at this place among those that the class declares. None where there is no such class or
     * method.
     */
    public synchronized Optional<String> methodName(ClassId type, int method) {
        MemorySegment open = at();
        return name(out -> Native.methodName(open, type.number(), method, out, length));
    }

    /** The descriptor of that method (JVMS SE 17 §4.3.3), as well. */
    public synchronized Optional<String> methodDescriptor(ClassId type, int method) {
        MemorySegment open = at();
        return name(out -> Native.methodType(open, type.number(), method, out, length));
    }

    /**
     * The invocations in that method's code, by rising pc; a request of one may be {@link Refusal.NotLinkable}. None where there is no such
     * class or method.
     */
    public synchronized Optional<List<Invocation>> invocations(ClassId type, int method) {
        MemorySegment open = at();
        return written(Native.INVOCATION * Integer.BYTES, out -> Native.invocations(open, type.number(), method, out, length),
                out -> Numbers.invocations(method, out));
    }

    /** The invocations in the codes of all methods of the class, method by method. None where there is no such class. */
    public synchronized Optional<List<Invocation>> invocations(ClassId type) {
        if (className(type).isEmpty()) {
            return Optional.empty();
        }
        List<Invocation> all = new ArrayList<>();
        Optional<List<Invocation>> some = invocations(type, 0);
        for (int method = 1; some.isPresent(); method++) {
            all.addAll(some.get());
            some = invocations(type, method);
        }
        return Optional.of(all);
    }

    /**
     * The name of the class that the refusal of the last event told of: the parent of {@link Refusal.DefineFault#MISSING_PARENT},
     * {@link Refusal.DefineFault#NOT_AN_INTERFACE} or {@link Refusal.DefineFault#INACCESSIBLE_PARENT}. None where it told of none.
     * {@link Refusal.NoClassFile} and {@link Refusal.Plain#MALFORMED} leave what the event before has told, and so does {@link #answer}.
     */
    public synchronized Optional<String> refusedName() {
        MemorySegment open = at();
        return name(out -> Native.named(open, out, length));
    }

    /**
     * The name of the class for which the site waits: where a call there wants the class that is named or a nest host
     * ({@link Answer.Want}), and so an install of it is {@link Refusal.SiteFault#NOT_READY}. None where it waits for none.
     */
    public synchronized Optional<String> awaitedClass(SiteId site) {
        MemorySegment open = at();
        return name(out -> Native.awaited(open, site.number(), out, length));
    }

    /** The answer to a command of docs/FORMATS.md. On {@link Refusal.Plain#MEMORY} it was obeyed, or nothing has changed. */
    public synchronized String answer(String line) {
        MemorySegment open = at();
        told.fill((byte) 0);
        try (Arena call = Arena.ofConfined()) {
            made(Native.answer(open, copied(call, line.getBytes(StandardCharsets.UTF_8)), length));
            MemorySegment text = call.allocate(length.get(JAVA_LONG, 0));
            made(Native.take(open, text, length));
            return new String(text.toArray(ValueLayout.JAVA_BYTE), StandardCharsets.UTF_8);
        }
    }

    /**
     * A fresh linker that has what stays of this one, which is left as it is, with the ids there: of what is retired or not used any more
     * something stays in a linker, so a program that runs for long goes over to a fresh one from time to time. What stays are the loaders
     * that aren't retired, their classes and the sites in these, and call sites and switch points as {@link Released} says; a site that stays
     * has its link. Each thread makes its seat, its memo and its view anew, of the fresh linker, and closes those that it had.
     *
     * @param maxSites how many sites may be requested there: 1 to 1,048,576, or else this is {@link Refusal.Plain#MALFORMED}; where more
     *     stay this is {@link Refusal.Plain#SITES_FULL}
     */
    public synchronized Renewal renew(int maxSites, Released released) {
        MemorySegment open = at();
        return renewed((call, fresh, numbers) ->
                Numbers.done(Native.renew(open, fresh, maxSites, released.callSiteNumbers(call), released.pointNumbers(call), numbers)));
    }

    /** A call that opens a fresh linker, and writes the new numbers of each kind into an array. */
    interface Opening {
        void into(Arena call, MemorySegment fresh, MemorySegment[] numbers);
    }

    /** The fresh linker of a call that holds this one's monitor, and the ids there. */
    Renewal renewed(Opening opening) {
        Linker fresh = new Linker(Arena.ofAuto());
        try (Arena call = Arena.ofConfined()) {
            MemorySegment counts = call.allocate(JAVA_INT, Native.COUNTS);
            Numbers.done(Native.counts(at(), counts));
            MemorySegment[] numbers = Arrays.stream(counts.toArray(JAVA_INT)).mapToObj(count -> call.allocate(JAVA_INT, count))
                    .toArray(MemorySegment[]::new);
            opening.into(call, fresh.at, numbers);
            return new Renewal(fresh, Arrays.stream(numbers).map(array -> array.toArray(JAVA_INT)).toArray(int[][]::new));
        } catch (RefusedException refused) {
            fresh.close();
            throw refused;
        }
    }

    /**
     * Begins to do in steps what {@link #renew} does in one call: between these steps this linker goes on, and its monitor is held for
     * moments alone.
     *
     * @param maxSites as of {@link #renew}; give as many as this linker was opened with, or requests that are still to come may be refused
     *     there
     */
    public Renewing beginRenewal(int maxSites, Released released) {
        return new Renewing(this, maxSites, released);
    }

    /** A place for this thread to read links. */
    public Seat seat() {
        return new Seat(this);
    }

    /**
     * What this thread remembers of calls at megamorphic links.
     *
     * @param sets how many sets, of two calls each: several times as many as there are calls that are made over and over. For less than 1
     *     this is {@link Refusal.Plain#MALFORMED}
     */
    public Memo memo(int sets) {
        return new Memo(this, sets);
    }

    /** What there is to link now, in which a thread prepares links without the linker's monitor. */
    public View view() {
        return new View(this);
    }
}
