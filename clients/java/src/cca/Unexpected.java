package cca;

/** A reply that no such request gets. The connection is closed, since it may be that of another request. */
public final class Unexpected extends CcaException {
    private static final long serialVersionUID = 1;

    Unexpected(String why) {
        super(why);
    }
}
