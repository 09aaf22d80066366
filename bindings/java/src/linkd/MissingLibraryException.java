package linkd;

/** The shared library isn't where it is looked for, or is of another version of the header than this library for Java. */
public final class MissingLibraryException extends RuntimeException {
    private static final long serialVersionUID = 1L;

    MissingLibraryException(String message) {
        super(message);
    }
}
