package linkd;

/** Whose a seat, a memo or a renewing is: the thread's that has made it, until that closes it. */
final class Owner {
    private final Thread thread = Thread.currentThread();
    private boolean open = true;

    /** Throws where this is another thread. */
    private void checkThread() {
        if (Thread.currentThread() != thread) {
            throw new WrongThreadException("it belongs to the thread that has made it");
        }
    }

    /** Throws where this is another thread, or all is closed. */
    void check() {
        checkThread();
        if (!open) {
            throw new RefusedException(Refusal.Plain.CLOSED);
        }
    }

    /** Closes. Whether it was open. */
    boolean close() {
        checkThread();
        boolean was = open;
        open = false;
        return was;
    }
}
