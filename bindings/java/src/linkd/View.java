package linkd;

import static java.lang.foreign.ValueLayout.JAVA_INT;
import static java.lang.foreign.ValueLayout.JAVA_LONG;

import java.lang.foreign.Arena;
import java.lang.foreign.MemorySegment;
import java.util.ArrayList;
import java.util.Collection;
import java.util.List;

/**
 * What there was to link when it was taken: classes, sites and call sites. A compiler's thread prepares links in it without the linker's
 * monitor, and compiles by them for as long as that takes; {@link Linker#installLinks} accepts them if they are from scratch then, so that
 * no code rests on a class hierarchy that was.
 *
 * <p>Any thread may use it, one at a time: each call holds the view's monitor, and {@link #take} first the linker's, as one may that makes
 * calls on both. It may outlive its linker. While it is open a later event may have to copy what the view still has, so close it once its
 * links are prepared.
 */
public final class View implements AutoCloseable {
    private final Linker linker;
    private final MemorySegment at;
    private final MemorySegment told;
    private final MemorySegment answer;
    private final MemorySegment serial;
    private boolean open = true;

    View(Linker linker) {
        this.linker = linker;
        Arena arena = Arena.ofAuto();
        at = Native.view(arena);
        told = arena.allocate(JAVA_INT, Native.TOLD);
        answer = arena.allocate(JAVA_INT, Native.ANSWER);
        serial = arena.allocate(JAVA_LONG);
        try {
            take();
        } catch (RefusedException refused) {
            close();
            throw refused;
        }
    }

    private MemorySegment at() {
        if (!open) {
            throw new RefusedException(Refusal.Plain.CLOSED);
        }
        return at;
    }

    /** Gives the view what there is to link now, in the place of what it had. Where this is refused it has what it had. */
    public void take() {
        synchronized (linker) {
            synchronized (this) {
                Numbers.done(Native.viewTake(at(), linker.at()));
            }
        }
    }

    /** After how many accepted events it was taken. */
    public synchronized long serial() {
        Numbers.done(Native.viewSerial(at(), serial));
        return serial.get(JAVA_LONG, 0);
    }

    /** What a call on null, or without a receiver, came to when the view was taken, linked or not. */
    public Answer call(SiteId site) {
        return call(site.number(), Native.NULL);
    }

    /** What a call on an object of the class came to when the view was taken, linked or not. */
    public Answer call(SiteId site, ClassId receiver) {
        return call(site.number(), receiver.number());
    }

    private synchronized Answer call(int site, int receiver) {
        Numbers.done(Native.viewCall(at(), site, receiver, answer));
        return Numbers.answer(answer).orElseThrow();
    }

    /**
     * The links of the sites from scratch, 1 to 256 of them, as they were when the view was taken, in the order of the sites: all or none.
     * Nothing is installed.
     *
     * <p>Refused with {@link Refusal.Plain#BATCH_SIZE}, and with {@link Refusal.SiteFault#UNKNOWN_SITE}, {@link Refusal.SiteFault#REPEATED}
     * or {@link Refusal.SiteFault#NOT_READY} of the first site that wasn't requested then, comes a second time, or had no link.
     */
    public synchronized List<SiteLink> prepare(Collection<SiteId> sites) {
        MemorySegment own = at();
        int[] numbers = sites.stream().mapToInt(SiteId::number).toArray();
        try (Arena call = Arena.ofConfined()) {
            MemorySegment links = call.allocate(JAVA_INT, (long) numbers.length * Native.LINK);
            Numbers.done(Native.viewPrepare(own, call.allocateFrom(JAVA_INT, numbers), numbers.length, links, told), told);
            return prepared(numbers, links);
        }
    }

    private static List<SiteLink> prepared(int[] sites, MemorySegment links) {
        List<SiteLink> prepared = new ArrayList<>();
        for (int i = 0; i < sites.length; i++) {
            Link link = Numbers.link(links.asSlice((long) i * Native.LINK * Integer.BYTES)).orElseThrow();
            prepared.add(new SiteLink(new SiteId(sites[i]), link));
        }
        return List.copyOf(prepared);
    }

    /** Lets go what the view has. */
    @Override
    public synchronized void close() {
        if (open) {
            open = false;
            Native.viewLeave(at);
        }
    }
}
