package linkd;

/** The linker refuses a call, and is as before. */
public final class RefusedException extends RuntimeException {
    private static final long serialVersionUID = 1L;

    private final transient Refusal refusal;

    RefusedException(Refusal refusal) {
        super(refusal.toString());
        this.refusal = refusal;
    }

    /** Why it refuses; null where this was deserialized. */
    public Refusal refusal() {
        return refusal;
    }
}
