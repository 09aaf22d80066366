package linkd;

/**
 * A class that is defined.
 *
 * @param number as the linker has given it, from 0 on
 */
public record ClassId(int number) {
    public ClassId {
        Ids.check(number);
    }
}
