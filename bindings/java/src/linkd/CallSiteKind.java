package linkd;

/** Whether a call site gets other targets later, and how (java.lang.invoke). */
public enum CallSiteKind {
    /** As ConstantCallSite. */
    CONSTANT,
    /** As MutableCallSite. */
    MUTABLE,
    /** As VolatileCallSite. */
    VOLATILE;

    int number() {
        return ordinal() + 1;
    }
}
