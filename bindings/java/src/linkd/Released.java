package linkd;

import static java.lang.foreign.ValueLayout.JAVA_INT;

import java.lang.foreign.Arena;
import java.lang.foreign.MemorySegment;
import java.util.Collection;
import java.util.List;

/**
 * The call sites and switch points that a program has let go: it asks for none of them again.
 *
 * @param callSites one stays where a site that stays is bound to it, or the target of a later call site that stays invokes it
 * @param points one stays where the target of a call site that stays guards by it
 */
public record Released(Collection<CallSiteId> callSites, Collection<SwitchId> points) {
    /** Nothing. */
    public static final Released NOTHING = new Released(List.of(), List.of());

    public Released {
        callSites = List.copyOf(callSites);
        points = List.copyOf(points);
    }

    MemorySegment callSiteNumbers(Arena call) {
        return call.allocateFrom(JAVA_INT, callSites.stream().mapToInt(CallSiteId::number).toArray());
    }

    MemorySegment pointNumbers(Arena call) {
        return call.allocateFrom(JAVA_INT, points.stream().mapToInt(SwitchId::number).toArray());
    }
}
