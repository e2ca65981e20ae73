package cca;

import java.util.Arrays;

/** A key token: 64 bytes, an enciphered key with its control vector. */
public final class Token implements Key {
    /** The bytes of a token. */
    public static final int SIZE = 64;

    private final byte[] bytes;

    /** Takes a copy of 64 bytes. */
    public Token(byte[] bytes) {
        if (bytes.length != SIZE) {
            throw new IllegalArgumentException("a key token has 64 bytes, and not " + bytes.length);
        }
        this.bytes = bytes.clone();
    }

    /** A copy of the 64 bytes. */
    public byte[] bytes() {
        return bytes.clone();
    }

    @Override
    public boolean equals(Object other) {
        return other instanceof Token token && Arrays.equals(bytes, token.bytes);
    }

    @Override
    public int hashCode() {
        return Arrays.hashCode(bytes);
    }

    @Override
    public String toString() {
        return "Token";
    }
}
