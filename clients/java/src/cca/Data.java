package cca;

/** Bytes of replies. */
public final class Data {
    private final byte[] bytes;
    private final boolean isOld;

    Data(byte[] bytes, boolean isOld) {
        this.bytes = bytes;
        this.isOld = isOld;
    }

    /** The bytes themselves, and no copy. */
    public byte[] bytes() {
        return bytes;
    }

    /** Whether a key of the request is under the old master key. It still works, until the next SET. */
    public boolean usedOldKey() {
        return isOld;
    }

    @Override
    public String toString() {
        return "Data of " + bytes.length + " bytes";
    }
}
