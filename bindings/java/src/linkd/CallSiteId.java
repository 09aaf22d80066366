package linkd;

/**
 * A call site of java.lang.invoke.
 *
 * @param number as the linker has given it, from 0 on
 */
public record CallSiteId(int number) {
    public CallSiteId {
        Ids.check(number);
    }
}
