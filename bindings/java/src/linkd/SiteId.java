package linkd;

/**
 * An invocation that is requested.
 *
 * @param number as the linker has given it, from 0 on
 */
public record SiteId(int number) {
    public SiteId {
        Ids.check(number);
    }
}
