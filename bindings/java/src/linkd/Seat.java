package linkd;

import static java.lang.foreign.ValueLayout.JAVA_INT;

import java.lang.foreign.Arena;
import java.lang.foreign.MemorySegment;
import java.util.Optional;

/**
 * One thread's place to read links, which takes no lock. It belongs to the thread that has made it, which also closes it; in another one
 * each call throws a {@link WrongThreadException}. It may outlive its linker, and goes on answering by the links of its last refresh.
 */
public final class Seat implements AutoCloseable {
    private final Owner owner = new Owner();
    private final Linker linker;
    private final MemorySegment at;
    private final MemorySegment answer;

    Seat(Linker linker) {
        this.linker = linker;
        Arena arena = Arena.ofAuto();
        at = Native.seat(arena);
        answer = arena.allocate(JAVA_INT, Native.ANSWER);
        try {
            refresh();
        } catch (RefusedException refused) {
            close();
            throw refused;
        }
    }

    private MemorySegment at() {
        owner.check();
        return at;
    }

    /** Gives the seat the linker's links as they are now. */
    public void refresh() {
        MemorySegment own = at();
        synchronized (linker) {
            Numbers.done(Native.seatRefresh(own, linker.at()));
        }
    }

    /** What a call on null, or without a receiver, comes to by the links of the last refresh. None is a miss: ask the linker. */
    public Optional<Answer> call(SiteId site) {
        return call(site.number(), Native.NULL);
    }

    /** What a call on an object of the class comes to by the links of the last refresh. None is a miss: ask the linker. */
    public Optional<Answer> call(SiteId site, ClassId receiver) {
        return call(site.number(), receiver.number());
    }

    private Optional<Answer> call(int site, int receiver) {
        return Numbers.answer(Native.seatAnswer(at(), site, receiver));
    }

    /**
     * The same as {@link #call(SiteId)}; at a megamorphic link, too, null throws at once, where the memo is of the seat's linker.
     */
    public Optional<Answer> callWith(Memo memo, SiteId site) {
        return callWith(memo, site.number(), Native.NULL);
    }

    /**
     * The same as {@link #call(SiteId, ClassId)}, and at a megamorphic link what the memo remembers of such calls, where it is of the
     * seat's linker. None is a miss: ask by the memo.
     */
    public Optional<Answer> callWith(Memo memo, SiteId site, ClassId receiver) {
        return callWith(memo, site.number(), receiver.number());
    }

    private Optional<Answer> callWith(Memo memo, int site, int receiver) {
        MemorySegment with = memo.at();
        if (!memo.isOf(linker)) {
            return call(site, receiver);
        }
        Numbers.done(Native.seatCallWith(at(), with, site, receiver, answer));
        return Numbers.answer(answer);
    }

    /** Lets the seat's links go. */
    @Override
    public void close() {
        if (owner.close()) {
            Native.seatLeave(at);
        }
    }
}
