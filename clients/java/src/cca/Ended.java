package cca;

/** A request got no reply. The connection is closed; the next request makes another one. */
public final class Ended extends CcaException {
    private static final long serialVersionUID = 1;

    private final boolean isInDoubt;

    Ended(String why, boolean isInDoubt) {
        super(why + "; the request " + (isInDoubt ? "may have been carried out all the same" : "wasn't carried out"));
        this.isInDoubt = isInDoubt;
    }

    /** Whether the request may have been carried out all the same. docs/operating tells how to find out. */
    public boolean isInDoubt() {
        return isInDoubt;
    }
}
