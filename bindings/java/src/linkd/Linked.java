package linkd;

/** An invocation that was requested, and its link. */
public sealed interface Linked {
    /** The site. */
    SiteId site();

    /**
     * A link is installed.
     *
     * @param link the link
     */
    record Installed(SiteId site, Link link) implements Linked {
    }

    /**
     * None is.
     *
     * @param refusal why not: {@link Refusal.SiteFault#NOT_READY}, or {@link Refusal.Plain#MEMORY}
     */
    record Pending(SiteId site, Refusal refusal) implements Linked {
    }
}
