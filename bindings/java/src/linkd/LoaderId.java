package linkd;

/**
 * A loader.
 *
 * @param number as the linker has given it, from 0 on
 */
public record LoaderId(int number) {
    /** The loader that is there from the start. */
    public static final LoaderId FIRST = new LoaderId(0);

    public LoaderId {
        Ids.check(number);
    }
}
