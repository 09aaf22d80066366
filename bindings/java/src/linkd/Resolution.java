package linkd;

import java.util.Optional;

/**
 * What a reference to a method resolves to (JVMS SE 17 §5.4.3.3, §5.4.3.4).
 *
 * @param found the method that was found, accessible or not
 * @param result what the resolution comes to
 */
public record Resolution(Optional<Method> found, Result result) {
    /** What a resolution comes to. */
    public sealed interface Result {
    }

    /** The reference resolves to the method that was found. */
    public record Resolved() implements Result {
    }

    /**
     * The resolution throws.
     *
     * @param error what it throws
     */
    public record Throws(Answer.Error error) implements Result {
    }

    /**
     * It isn't known yet, since a nest host isn't there.
     *
     * @param why {@link Answer.Want#CALLER_HOST} or {@link Answer.Want#METHOD_HOST}
     */
    public record Unlinked(Answer.Want why) implements Result {
    }
}
