package linkd;

/**
 * How many of each kind a linker ever gives numbers to, those of what is retired among them. Each is at most {@link #MOST}.
 *
 * @param sites requested sites: at least 1
 * @param loaders loaders, the first one among them; 0 stands for the most
 * @param classes classes; 0 stands for the most
 * @param callSites call sites; 0 stands for the most
 * @param points switch points; 0 stands for the most
 */
public record Limits(int sites, int loaders, int classes, int callSites, int points) {
    /** The most of a kind that a linker may have. */
    public static final int MOST = Ids.MOST;

    /** So many sites, and the most of each other kind. */
    public static Limits ofSites(int sites) {
        return new Limits(sites, MOST, MOST, MOST, MOST);
    }
}
