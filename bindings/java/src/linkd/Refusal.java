package linkd;

/** Why the linker refuses a call, or couldn't obey it. It is as before then. */
public sealed interface Refusal {
    /**
     * A class isn't defined (JVMS SE 17 §5.3.5).
     *
     * @param fault why not
     */
    record Define(DefineFault fault) implements Refusal {
    }

    /**
     * Bytes are no class file (JVMS SE 17 chapter 4).
     *
     * @param fault why not
     * @param place the pool's entry, the member or the method; else 0
     * @param cause more closely, of a pool or a code, as linkd.h says; else 0
     * @param pc the pc of a fault of a code; else 0
     */
    record NoClassFile(ClassFault fault, int place, int cause, int pc) implements Refusal {
    }

    /**
     * A loader doesn't find a class by another.
     *
     * @param fault why not
     */
    record Delegate(DelegateFault fault) implements Refusal {
    }

    /**
     * An invocation isn't linked.
     *
     * @param why why not
     */
    record NotLinkable(Form why) implements Refusal {
    }

    /**
     * A call site isn't made, or has no new target.
     *
     * @param fault why not
     * @param place of INVOKER_ORDER the call site that the target invokes; else 0
     */
    record CallSite(CallSiteFault fault, int place) implements Refusal {
    }

    /**
     * A loader isn't retired.
     *
     * @param fault why not
     * @param place the class, the loader or the call site that the fault is about; else 0
     */
    record Retire(RetireFault fault, int place) implements Refusal {
    }

    /**
     * None of several loaders is retired.
     *
     * @param loader the first of those that were given that can't go
     * @param fault why it can't
     * @param place the class, the loader or the call site that the fault is about; else 0
     */
    record RetireAll(LoaderId loader, RetireFault fault, int place) implements Refusal {
    }

    /**
     * Call sites and switch points aren't released.
     *
     * @param fault why not
     * @param place the call site or the switch point that the fault is about
     */
    record Release(ReleaseFault fault, int place) implements Refusal {
    }

    /**
     * A site of those that were handed in can't be prepared, installed or bound.
     *
     * @param fault why not
     * @param place the site; of ALREADY_BOUND the call site that it is bound to
     */
    record Site(SiteFault fault, int place) implements Refusal {
    }

    /**
     * A link that was given isn't its site's link from scratch now.
     *
     * @param site the first such site of those that were given
     * @param present the link that it has from scratch now
     */
    record Stale(SiteId site, Link present) implements Refusal {
    }

    /**
     * Since a {@link Renewing} has begun an event has named what was released and is gone. It can't be finished.
     *
     * @param number of the call site or the switch point that is gone
     * @param events how many of the old linker's events the fresh one has
     */
    record NamesReleased(int number, int events) implements Refusal {
    }

    /** A refusal of which its name says all. */
    enum Plain implements Refusal {
        /** There is no such class, or it is retired. */
        UNKNOWN_CLASS,
        /** The class has no such method, or no invocation there. */
        NO_SUCH_PLACE,
        /** As many sites are requested as may be. */
        SITES_FULL,
        /** The site is no invokedynamic. */
        NOT_DYNAMIC,
        /** The call site's type isn't the invokedynamic's. */
        TYPE_MISMATCH,
        /** No sites, or more than 256. */
        BATCH_SIZE,
        /** Want of memory. */
        MEMORY,
        /** There are as many loaders as the linker may have. */
        LOADERS_FULL,
        /** A type, a target or a link that is none, or a number that is too large. */
        MALFORMED,
        /** The linker, the seat, the memo, the view or the renewing is closed. */
        CLOSED
    }

    /**
     * A status that has no name here.
     *
     * @param status of linkd_status
     * @param fault by the status
     */
    record Other(int status, int fault) implements Refusal {
    }

    /** Why a class isn't defined, by the header's numbers. */
    enum DefineFault {
        UNKNOWN_LOADER,
        ALREADY_RECORDED,
        NAMES_ITSELF,
        MISSING_PARENT,
        SUPER_IS_INTERFACE,
        FINAL_SUPER,
        NOT_AN_INTERFACE,
        INACCESSIBLE_PARENT,
        SECOND_OBJECT,
        CLASSES_FULL
    }

    /** Why bytes are no class file, by the header's numbers. */
    enum ClassFault {
        TOO_LARGE,
        BAD_MAGIC,
        BAD_VERSION,
        TRUNCATED,
        POOL,
        MODULE_FILE,
        BAD_SUPER,
        DUPLICATE_METHOD,
        TWO_CODES,
        CODE,
        TRAILING_BYTES,
        BAD_MEMBER,
        BAD_LINK,
        BAD_NEST
    }

    /** Why a loader doesn't find a class by another, by the header's numbers. */
    enum DelegateFault {
        UNKNOWN_LOADER,
        NOT_RECORDED,
        ALREADY_RECORDED
    }

    /** What an invocation names that isn't linked, by the header's numbers. */
    enum Form {
        ARRAY_RECEIVER,
        POLYMORPHIC_SIGNATURE
    }

    /** Why a call site isn't made, or has no new target, by the header's numbers. */
    enum CallSiteFault {
        UNKNOWN_CALL_SITE,
        CONSTANT,
        WRONG_TYPE,
        UNKNOWN_METHOD,
        NOT_STATIC,
        UNKNOWN_SWITCH,
        TOO_DEEP,
        CALL_SITES_FULL,
        INVOKER_ORDER
    }

    /** Why a loader isn't retired, by the header's numbers. */
    enum RetireFault {
        NO_LOADER,
        FIRST_LOADER,
        INHERITED,
        RECORDED,
        TARGETED
    }

    /** Why call sites and switch points aren't released, by the header's numbers. */
    enum ReleaseFault {
        NO_CALL_SITE,
        NO_SWITCH,
        INVOKED,
        GUARDED
    }

    /** What is wrong with a site. */
    enum SiteFault {
        ALREADY_BOUND,
        /** It has no link from scratch now, or had none when the view was taken. */
        NOT_READY,
        UNKNOWN_SITE,
        REPEATED
    }
}
