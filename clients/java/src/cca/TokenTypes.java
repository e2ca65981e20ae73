package cca;

import java.util.Arrays;
import java.util.HexFormat;

/** What the control vector in the bytes of a token says of its type. */
final class TokenTypes {
    private static final HexFormat HEX = HexFormat.of();
    private static final int VECTORS = 32;
    private static final int HALF = 8;
    private static final int FORM = 5; // the byte of a half that has its form
    private static final int IS_PART = 0x08; // the bit of that byte which says that a key is a part
    private static final int PART = 0x09; // what a part turns over there: that bit, and the one that keeps the parity

    private TokenTypes() {
    }

    /** Whether a token has the type that a parameter names: TOKEN takes any, and DATA that of other systems too. */
    static boolean isOf(String name, byte[] token) {
        byte[] vectors = Arrays.copyOfRange(token, VECTORS, VECTORS + 2 * HALF);
        if (name.equals("TOKEN") || (name.equals("DATA") && Arrays.equals(vectors, new byte[2 * HALF]))) {
            return true;
        }
        return Types.ALL.stream().anyMatch(it -> it.name().equals(name) && (isSingle(it, vectors) || isDouble(it, vectors)));
    }

    private static boolean isSingle(Types.Type type, byte[] vectors) {
        return !type.single().isEmpty() && Arrays.equals(vectors, Arrays.copyOf(HEX.parseHex(type.single()), 2 * HALF));
    }

    private static boolean isDouble(Types.Type type, byte[] vectors) {
        return hasForms(type, vectors, 0x41, 0x21) || hasForms(type, vectors, 0xC0, 0xA0);
    }

    /** Whether both halves are those of the type, with these forms. */
    private static boolean hasForms(Types.Type type, byte[] vectors, int left, int right) {
        if (type.left().isEmpty()) {
            return false;
        }
        byte[] wanted = Arrays.copyOf(HEX.parseHex(type.left()), 2 * HALF);
        System.arraycopy(wanted, 0, wanted, HALF, HALF);
        wanted[FORM] = (byte) left;
        wanted[HALF + FORM] = (byte) right;
        return Arrays.equals(vectors, wanted);
    }

    /** Whether a key has 8 bytes, by its token. */
    static boolean isSingle(Key key) {
        return key instanceof Token token && (token.bytes()[VECTORS + FORM] & 0xE0) == 0;
    }

    /** The type and the length that a token without a key names, for a first part; or null. */
    record Skeleton(String type, int length) {
    }

    /** The same of a token's bytes. A vector that says key part is that of the part to come. */
    static Skeleton skeleton(byte[] token) {
        if (token.length < Token.SIZE || token[0] != 1 || !Arrays.equals(Arrays.copyOfRange(token, 16, VECTORS), new byte[2 * HALF])) {
            return null;
        }
        byte[] vectors = whole(Arrays.copyOfRange(token, VECTORS, VECTORS + 2 * HALF));
        for (Types.Type type : Types.ALL) {
            if (isSingle(type, vectors)) {
                return new Skeleton(type.name(), HALF);
            }
            if (hasForms(type, vectors, 0x41, 0x21)) {
                return new Skeleton(type.name(), 2 * HALF);
            }
        }
        return null;
    }

    /** The vectors of the whole key, where these are of a part. */
    private static byte[] whole(byte[] vectors) {
        if ((vectors[FORM] & IS_PART) != 0) {
            vectors[FORM] ^= PART;
            if (vectors[HALF + FORM] != 0) {
                vectors[HALF + FORM] ^= PART;
            }
        }
        return vectors;
    }
}
