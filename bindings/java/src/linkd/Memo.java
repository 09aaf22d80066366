package linkd;

import static java.lang.foreign.ValueLayout.JAVA_INT;

import java.lang.foreign.Arena;
import java.lang.foreign.MemorySegment;
import java.util.Optional;

/**
 * What one thread remembers of calls at megamorphic links, by site and receiver's class, so that the next one takes no lock (a method
 * cache: Deutsch and Schiffman 1984). It belongs to the thread that has made it, which also closes it; in another one each call throws a
 * {@link WrongThreadException}. What it remembers stays right whatever is defined later, while the site's class and the receiver's are
 * present.
 */
public final class Memo implements AutoCloseable {
    private final Owner owner = new Owner();
    private final Linker linker;
    private final MemorySegment at;
    private final MemorySegment answer;

    Memo(Linker linker, int sets) {
        this.linker = linker;
        Arena arena = Arena.ofAuto();
        at = Native.memo(arena);
        answer = arena.allocate(JAVA_INT, Native.ANSWER);
        try {
            open(sets);
        } catch (RefusedException refused) {
            close();
            throw refused;
        }
    }

    /** Refused here, since the library would read a negative number of sets as one above 2^31. */
    private void open(int sets) {
        if (sets < 1) {
            throw new RefusedException(Refusal.Plain.MALFORMED);
        }
        Numbers.done(Native.memoOpen(at, sets));
    }

    /** The memo, for a call of its thread. */
    MemorySegment at() {
        owner.check();
        return at;
    }

    /** Whether it remembers calls of this linker. */
    boolean isOf(Linker other) {
        return linker == other;
    }

    /** As {@link Linker#call(SiteId)}, on the linker that the memo is of. Of null nothing is remembered. */
    public Answer ask(SiteId site) {
        return ask(site.number(), Native.NULL);
    }

    /**
     * As {@link Linker#call(SiteId, ClassId)}, on the linker that the memo is of. The answer is remembered where the site's link is
     * megamorphic and the call runs a method or throws, maybe in the place of another one.
     */
    public Answer ask(SiteId site, ClassId receiver) {
        return ask(site.number(), receiver.number());
    }

    private Answer ask(int site, int receiver) {
        MemorySegment own = at();
        synchronized (linker) {
            Numbers.done(Native.memoAsk(own, linker.at(), site, receiver, answer));
        }
        return Numbers.answer(answer).orElseThrow();
    }

    /**
     * What the memo remembers that a call on an object of the class comes to, by itself; none where it remembers nothing. It knows nothing
     * of the site's link, nor that its loader is retired.
     */
    public Optional<Answer> call(SiteId site, ClassId receiver) {
        Numbers.done(Native.memoCall(at(), site.number(), receiver.number(), answer));
        return Numbers.answer(answer);
    }

    /** Lets go what the memo remembers. */
    @Override
    public void close() {
        if (owner.close()) {
            Native.memoClose(at);
        }
    }
}
