package linkd;

import java.util.Optional;
import java.util.function.IntFunction;

/**
 * A fresh linker, by {@link Linker#renew} or {@link Renewing#finish}, and the ids there of what stays of the old one. None stands for what
 * is gone, and for an id that the old linker hadn't given.
 */
public final class Renewal {
    private final Linker linker;
    private final int[][] numbers;

    /** Of each kind, in the order of a linkd_count, the new number of each old one. */
    Renewal(Linker linker, int[][] numbers) {
        this.linker = linker;
        this.numbers = numbers;
    }

    /** The fresh linker. */
    public Linker linker() {
        return linker;
    }

    private <T> Optional<T> renewed(int kind, int old, IntFunction<T> id) {
        boolean stays = old < numbers[kind].length && numbers[kind][old] != Native.NO_NUMBER;
        return stays ? Optional.of(id.apply(numbers[kind][old])) : Optional.empty();
    }

    /** A loader that isn't retired stays. */
    public Optional<LoaderId> loader(LoaderId old) {
        return renewed(0, old.number(), LoaderId::new);
    }

    /** A class stays with its loader. */
    public Optional<ClassId> type(ClassId old) {
        return renewed(1, old.number(), ClassId::new);
    }

    /** A site stays with its class, and so does its link. */
    public Optional<SiteId> site(SiteId old) {
        return renewed(2, old.number(), SiteId::new);
    }

    /** A call site stays as {@link Released} says. */
    public Optional<CallSiteId> callSite(CallSiteId old) {
        return renewed(3, old.number(), CallSiteId::new);
    }

    /** A switch point stays as {@link Released} says. */
    public Optional<SwitchId> point(SwitchId old) {
        return renewed(4, old.number(), SwitchId::new);
    }
}
