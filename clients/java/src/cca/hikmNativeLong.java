package cca;

/** A number that a verb takes and gives, as IBM's classes for Java have it. */
public final class hikmNativeLong {
    private int value;

    /** A number. */
    public hikmNativeLong(int value) {
        this.value = value;
    }

    /** The number. */
    public int getValue() {
        return value;
    }

    /** Changes the number. */
    public void setValue(int value) {
        this.value = value;
    }
}
