package linkd;

/**
 * A switch point of java.lang.invoke.
 *
 * @param number as the linker has given it, from 0 on
 */
public record SwitchId(int number) {
    public SwitchId {
        Ids.check(number);
    }
}
