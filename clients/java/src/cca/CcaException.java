package cca;

/** A request was refused, got no reply, or got one that no such request gets. */
public abstract sealed class CcaException extends RuntimeException permits Refused, Ended, Unexpected {
    private static final long serialVersionUID = 1;

    CcaException(String message) {
        super(message);
    }
}
