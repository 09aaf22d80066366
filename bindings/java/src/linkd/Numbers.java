package linkd;

import static java.lang.foreign.ValueLayout.JAVA_INT;

import java.lang.foreign.MemorySegment;
import java.util.ArrayList;
import java.util.Collections;
import java.util.LinkedHashMap;
import java.util.List;
import java.util.Map;
import java.util.Optional;

/** Reads what the library has written: a linkd_told, a linkd_call_answer, a linkd_resolution, a linkd_link; and writes links for it. */
final class Numbers {
    private static final int MISS = 4;

    private Numbers() {
    }

    private static int at(MemorySegment from, int index) {
        return from.getAtIndex(JAVA_INT, index);
    }

    /** A fault by its number, from 1 on, or null where it has no name here. */
    private static <T> T named(T[] all, int number) {
        return number >= 1 && number <= all.length ? all[number - 1] : null;
    }

    /** What an event made. */
    static int number(MemorySegment told) {
        return at(told, 0);
    }

    /** What a refusal is about. */
    static int place(MemorySegment told) {
        return at(told, 2);
    }

    /** Throws where this isn't the status of what is done; so of a call that tells no more. */
    static void done(int status) {
        if (status != Native.DONE) {
            throw new RefusedException(refusal(status, MemorySegment.ofArray(new int[Native.TOLD])));
        }
    }

    /** The same of a call that has told more. */
    static void done(int status, MemorySegment told) {
        if (status != Native.DONE) {
            throw new RefusedException(refusal(status, told));
        }
    }

    /** The same of a retirement of several loaders, which tells, too, the one that can't go. */
    static void allRetired(int status, MemorySegment told) {
        if (status != Native.DONE && refusal(status, told) instanceof Refusal.Retire(Refusal.RetireFault fault, int place)) {
            throw new RefusedException(new Refusal.RetireAll(new LoaderId(number(told)), fault, place));
        }
        done(status, told);
    }

    private static Refusal site(Refusal.SiteFault fault, int place) {
        return new Refusal.Site(fault, place);
    }

    private static Refusal orOther(Object fault, Refusal refusal, int status, int number) {
        return fault == null ? new Refusal.Other(status, number) : refusal;
    }

    private static Refusal noClassFile(MemorySegment told, int place) {
        Refusal.ClassFault fault = named(Refusal.ClassFault.values(), at(told, 1));
        return orOther(fault, new Refusal.NoClassFile(fault, place, at(told, 3), at(told, 4)), 32, at(told, 1));
    }

    /** A refusal whose fault has a name of its own. */
    private static Refusal faulty(int status, int number, int place) {
        Object fault = switch (status) {
            case 1 -> named(Refusal.DefineFault.values(), number);
            case 4 -> named(Refusal.Form.values(), number);
            case 6 -> named(Refusal.CallSiteFault.values(), number);
            case 16 -> named(Refusal.DelegateFault.values(), number);
            case 20 -> named(Refusal.ReleaseFault.values(), number);
            default -> named(Refusal.RetireFault.values(), number);
        };
        return switch (fault) {
            case Refusal.DefineFault it -> new Refusal.Define(it);
            case Refusal.Form it -> new Refusal.NotLinkable(it);
            case Refusal.CallSiteFault it -> new Refusal.CallSite(it, place);
            case Refusal.DelegateFault it -> new Refusal.Delegate(it);
            case Refusal.RetireFault it -> new Refusal.Retire(it, place);
            case Refusal.ReleaseFault it -> new Refusal.Release(it, place);
            case null, default -> new Refusal.Other(status, number);
        };
    }

    /** The refusal of a status other than 0. A stale link is told with the present one, by its caller. */
    private static Refusal refusal(int status, MemorySegment told) {
        int place = place(told);
        return switch (status) {
            case 1, 4, 6, 16, 19, 20 -> faulty(status, at(told, 1), place);
            case 2 -> Refusal.Plain.UNKNOWN_CLASS;
            case 3 -> Refusal.Plain.NO_SUCH_PLACE;
            case 5 -> Refusal.Plain.SITES_FULL;
            case 7 -> Refusal.Plain.NOT_DYNAMIC;
            case 8 -> site(Refusal.SiteFault.ALREADY_BOUND, place);
            case 9 -> Refusal.Plain.TYPE_MISMATCH;
            case 11 -> site(Refusal.SiteFault.NOT_READY, place);
            case 12 -> site(Refusal.SiteFault.UNKNOWN_SITE, place);
            case 13 -> site(Refusal.SiteFault.REPEATED, place);
            case 14 -> Refusal.Plain.BATCH_SIZE;
            case 15 -> Refusal.Plain.MEMORY;
            case 17 -> Refusal.Plain.LOADERS_FULL;
            case 32 -> noClassFile(told, place);
            case 33 -> Refusal.Plain.MALFORMED;
            case 34 -> Refusal.Plain.CLOSED;
            case 37 -> new Refusal.NamesReleased(place, number(told));
            default -> new Refusal.Other(status, at(told, 1));
        };
    }

    private static Answer.Outcome outcome(int kind, int type, int value) {
        return kind == 0 ? new Answer.Run(new ClassId(type), value) : new Answer.Throws(Answer.Error.values()[value - 1]);
    }

    /** An answer, or none on a miss. */
    static Optional<Answer> answer(MemorySegment from) {
        return answer(at(from, 0), at(from, 1), at(from, 2));
    }

    /** The answer of these 64 bits, or none on a miss: from bit 0 on the class, from bit 32 on the value, from bit 56 on the kind. */
    static Optional<Answer> answer(long bits) {
        return answer((int) (bits >>> 56), (int) bits, (int) (bits >>> 32) & 0xffffff);
    }

    private static Optional<Answer> answer(int kind, int type, int value) {
        return switch (kind) {
            case 2 -> Optional.of(new Answer.BadReceiver());
            case 3 -> Optional.of(new Answer.Unlinked(Answer.Want.values()[value - 1]));
            case MISS -> Optional.empty();
            default -> Optional.of(outcome(kind, type, value));
        };
    }

    /** A resolution. Its method is there but where none was found. */
    static Resolution resolution(MemorySegment from) {
        boolean isFound = at(from, 2) != Native.NO_NUMBER;
        Optional<Method> found = isFound ? Optional.of(new Method(new ClassId(at(from, 2)), at(from, 3))) : Optional.empty();
        return new Resolution(found, switch (at(from, 0)) {
            case 0 -> new Resolution.Resolved();
            case 1 -> new Resolution.Throws(Answer.Error.values()[at(from, 1) - 1]);
            default -> new Resolution.Unlinked(Answer.Want.values()[at(from, 1) - 1]);
        });
    }

    /** What a call that requests a place and installs its link has told. Throws what refuses the request, which has written no link. */
    static Linked linked(int status, MemorySegment told, MemorySegment link) {
        SiteId site = new SiteId(number(told));
        if (status == Native.DONE) {
            return new Linked.Installed(site, link(link).orElseThrow());
        }
        Refusal refusal = refusal(status, told);
        if (at(link, 0) == Native.UNWRITTEN) {
            throw new RefusedException(refusal);
        }
        return new Linked.Pending(site, refusal);
    }

    private static Answer.Outcome rowOutcome(MemorySegment link, int row) {
        int from = 2 + 4 * row;
        return outcome(at(link, from + 1), at(link, from + 2), at(link, from + 3));
    }

    private static Link table(MemorySegment link, boolean ofInterface) {
        List<Link.Row> rows = new ArrayList<>();
        for (int row = 0; row < at(link, 1); row++) {
            rows.add(new Link.Row(new ClassId(at(link, 2 + 4 * row)), rowOutcome(link, row)));
        }
        return new Link.Table(ofInterface, rows);
    }

    /** A link, or none where none is installed. */
    static Optional<Link> link(MemorySegment from) {
        return switch (at(from, 0)) {
            case 1 -> Optional.of(new Link.Fault(((Answer.Throws) rowOutcome(from, 0)).error()));
            case 2 -> Optional.of(new Link.Plain(rowOutcome(from, 0)));
            case 3 -> Optional.of(new Link.Direct(rowOutcome(from, 0)));
            case 4 -> Optional.of(table(from, false));
            case 5 -> Optional.of(table(from, true));
            case 6 -> Optional.of(new Link.Megamorphic());
            default -> Optional.empty();
        };
    }

    /** The links of the sites, each of them a linkd_link, but for those where none is installed. */
    static Map<SiteId, Link> links(int[] sites, MemorySegment from) {
        Map<SiteId, Link> all = new LinkedHashMap<>();
        for (int i = 0; i < sites.length; i++) {
            SiteId site = new SiteId(sites[i]);
            link(from.asSlice((long) i * Native.LINK * Integer.BYTES)).ifPresent(link -> all.put(site, link));
        }
        return Collections.unmodifiableMap(all);
    }

    /** The invocations of a method, each of them a linkd_invocation. */
    static List<Invocation> invocations(int method, MemorySegment from) {
        List<Invocation> all = new ArrayList<>();
        for (int i = 0; i < from.byteSize() / Integer.BYTES; i += Native.INVOCATION) {
            all.add(new Invocation(method, at(from, i), Instruction.of(at(from, i + 1))));
        }
        return all;
    }

    private static void put(MemorySegment to, int... numbers) {
        MemorySegment.copy(numbers, 0, to, JAVA_INT, 0, numbers.length);
    }

    private static void write(Link.Row row, MemorySegment to) {
        int receiver = row.receiver().number();
        switch (row.outcome()) {
            case Answer.Run run -> put(to, receiver, 0, run.type().number(), run.method());
            case Answer.Throws thrown -> put(to, receiver, 1, 0, thrown.error().ordinal() + 1);
        }
    }

    /** A link of these rows. There is room for eight; that there are more is told by their count, and refused by the library. */
    private static void write(int kind, List<Link.Row> rows, MemorySegment to) {
        put(to, kind, rows.size());
        for (int row = 0; row < Math.min(rows.size(), Native.MOST_ROWS); row++) {
            write(rows.get(row), to.asSlice((2 + 4L * row) * Integer.BYTES));
        }
    }

    private static void write(int kind, Answer.Outcome outcome, MemorySegment to) {
        write(kind, List.of(new Link.Row(new ClassId(0), outcome)), to);
    }

    /** Writes a linkd_link over zeros. */
    private static void write(Link link, MemorySegment to) {
        switch (link) {
            case Link.Fault fault -> write(1, new Answer.Throws(fault.error()), to);
            case Link.Plain plain -> write(2, plain.outcome(), to);
            case Link.Direct direct -> write(3, direct.outcome(), to);
            case Link.Table table -> write(table.ofInterface() ? 5 : 4, table.rows(), to);
            case Link.Megamorphic _ -> write(6, List.of(), to);
        }
    }

    /** Writes a linkd_link_row over zeros, at its place among others. */
    static void write(SiteLink of, MemorySegment to, long place) {
        MemorySegment row = to.asSlice(place * Native.LINK_ROW * Integer.BYTES);
        put(row, of.site().number());
        write(of.link(), row.asSlice(Integer.BYTES));
    }
}
