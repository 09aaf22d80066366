package linkd;

import static java.lang.foreign.ValueLayout.JAVA_INT;
import static java.lang.foreign.ValueLayout.JAVA_LONG;

import java.lang.foreign.Arena;
import java.lang.foreign.MemorySegment;

/**
 * What {@link Linker#renew} does, in steps between which the linker goes on: its monitor is held for moments alone.
 *
 * <pre>{@code
 * try (Renewing renewing = linker.beginRenewal(maxSites, released)) {
 *     do {
 *         renewing.take(1_000);
 *         renewing.fill();
 *     } while (renewing.take(0) > 100); // as many have come meanwhile
 *     synchronized (linker) {
 *         Renewal renewal = renewing.finish();
 *         publish(renewal);
 *     }
 * }
 * }</pre>
 *
 * <p>It is of the linker that has begun it. From the begin on that linker is asked for nothing that was released: an event that names it ends
 * the renewing by {@link Refusal.NamesReleased}, which changes nothing of the linker. It belongs to the thread that has made it, which also
 * closes it; in another one each call throws a {@link WrongThreadException}. Several of one linker may be under way at a time; each finish
 * gives a linker of its own.
 */
public final class Renewing implements AutoCloseable {
    private final Owner owner = new Owner();
    private final Linker linker;
    private final MemorySegment at;
    private final MemorySegment told;
    private final MemorySegment left;

    Renewing(Linker linker, int maxSites, Released released) {
        this.linker = linker;
        Arena arena = Arena.ofAuto();
        at = Native.renewal(arena);
        told = arena.allocate(JAVA_INT, Native.TOLD);
        left = arena.allocate(JAVA_LONG);
        try {
            begin(maxSites, released);
        } catch (RefusedException refused) {
            close();
            throw refused;
        }
    }

    private void begin(int maxSites, Released released) {
        try (Arena call = Arena.ofConfined()) {
            MemorySegment callSites = released.callSiteNumbers(call);
            MemorySegment points = released.pointNumbers(call);
            synchronized (linker) {
                Numbers.done(Native.renewalBegin(at, linker.at(), maxSites, callSites, points));
            }
        }
    }

    private MemorySegment at() {
        owner.check();
        return at;
    }

    /**
     * Takes the next events that the linker has accepted since the begin. An event is shared, and not copied. If there is no memory, none was
     * taken, and it may be tried again.
     *
     * @param most how many of them at most; for less than 0 this is {@link Refusal.Plain#MALFORMED}
     * @return how many are left then
     */
    public long take(long most) {
        MemorySegment own = at();
        if (most < 0) {
            throw new RefusedException(Refusal.Plain.MALFORMED);
        }
        synchronized (linker) {
            Numbers.done(Native.renewalTake(own, linker.at(), most, left));
        }
        return left.get(JAVA_LONG, 0);
    }

    /**
     * Makes the fresh linker: at first of what there was at the begin, which takes the most time, and then of each event that was taken. It
     * doesn't hold the linker's monitor. If there is no memory, it may be tried again.
     *
     * <p>Refused with {@link Refusal.Plain#SITES_FULL}, where more sites stay than may be requested there, or are requested later, and with
     * {@link Refusal.NamesReleased}. After either it can only be closed.
     */
    public void fill() {
        Numbers.done(Native.renewalFill(at(), told), told);
    }

    /**
     * Takes what is left and carries it over; then the fresh linker is there, with the ids of what stays. What the old linker accepts from
     * now on the fresh one never has: so hold the old one's monitor until all threads ask the fresh one. Refused as {@link #fill}, and if
     * there is no memory; then it hasn't ended. Once it is done it refuses all with {@link Refusal.Plain#CLOSED}.
     */
    public Renewal finish() {
        MemorySegment own = at();
        synchronized (linker) {
            MemorySegment from = linker.at();
            return linker.renewed((_, fresh, numbers) -> Numbers.done(Native.renewalFinish(own, from, fresh, told, numbers), told));
        }
    }

    /** Lets go what was made. */
    @Override
    public void close() {
        if (owner.close()) {
            Native.renewalLeave(at);
        }
    }
}
