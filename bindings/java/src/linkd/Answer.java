package linkd;

/** What a call comes to. */
public sealed interface Answer {
    /** What a linked call does. */
    sealed interface Outcome extends Answer {
    }

    /**
     * A method runs.
     *
     * @param type the class that declares it
     * @param method its place among those that the class declares
     */
    record Run(ClassId type, int method) implements Outcome {
    }

    /**
     * The call throws.
     *
     * @param error what it throws
     */
    record Throws(Error error) implements Outcome {
    }

    /** No object can be such a receiver here. */
    record BadReceiver() implements Answer {
    }

    /**
     * The site has no link.
     *
     * @param why why not
     */
    record Unlinked(Want why) implements Answer {
    }

    /** What a call throws (JVMS SE 17 §6.5). */
    enum Error {
        NO_SUCH_METHOD_ERROR,
        ILLEGAL_ACCESS_ERROR,
        INCOMPATIBLE_CLASS_CHANGE_ERROR,
        ABSTRACT_METHOD_ERROR,
        NULL_POINTER_EXCEPTION
    }

    /** Why a site has no link. */
    enum Want {
        /** The class that the instruction names isn't there yet. */
        NAMED_CLASS,
        /** The nest host of the caller's class isn't. */
        CALLER_HOST,
        /** The nest host of the method's class isn't. */
        METHOD_HOST,
        /** An invokedynamic without a call site. */
        CALL_SITE,
        /** The class of the site is retired, or the call site to which it is bound is released. */
        GONE,
        /** Nothing is requested under this number. */
        NO_SITE
    }
}
