package cca;

import java.util.Arrays;

/** A request line on its way. It may hold clear keys, so its bytes are wiped once it was sent. */
final class RequestLine {
    /** The bytes of the longest line, without its newline. */
    static final int LONGEST = 9_216;

    private static final byte[] DIGITS = "0123456789abcdef".getBytes(java.nio.charset.StandardCharsets.US_ASCII);

    private final byte[] bytes = new byte[LONGEST + 1];
    private int length;

    /** A line that begins so. */
    RequestLine(String verb) {
        append(verb);
    }

    /** A line of which nothing is checked but that it is one line. */
    static RequestLine whole(String request) {
        if (request.indexOf('\n') >= 0) {
            throw new IllegalArgumentException("a request is one line");
        }
        return new RequestLine(request);
    }

    static void wipe(byte[] bytes) {
        Arrays.fill(bytes, (byte) 0);
    }

    /** What may stand for a label in a line: rule 06 says more about it. */
    static void checkLabel(String name) {
        if (name.isEmpty() || name.chars().anyMatch(it -> it < 0x21 || it > 0x7E)) {
            throw new IllegalArgumentException("a label has one or more characters from X'21' to X'7E'");
        }
    }

    private void append(byte it) {
        if (length == LONGEST) {
            wipe(bytes);
            throw new IllegalArgumentException("the request is longer than a line may be");
        }
        bytes[length++] = it;
    }

    private void append(String text) {
        for (int at = 0; at < text.length(); at++) {
            if (text.charAt(at) > 0xFF) {
                throw new IllegalArgumentException("a character that no request has");
            }
            append((byte) text.charAt(at));
        }
    }

    private RequestLine name(String name) {
        append((byte) ' ');
        append(name);
        append((byte) '=');
        return this;
    }

    private void appendDigits(byte[] data) {
        for (byte it : data) {
            append(DIGITS[it >> 4 & 15]);
            append(DIGITS[it & 15]);
        }
    }

    /** One of some words. */
    RequestLine word(String name, String value, String... words) {
        if (!Arrays.asList(words).contains(value)) {
            throw new IllegalArgumentException(name + ": " + String.join(" or ", words) + " is wanted");
        }
        name(name).append(value);
        return this;
    }

    /** Bytes, as many as one of these numbers says; with none any number. */
    RequestLine bytes(String name, byte[] value, int... sizes) {
        if (sizes.length > 0 && Arrays.stream(sizes).noneMatch(it -> it == value.length)) {
            throw new IllegalArgumentException(name + ": " + value.length + " bytes, and " + Arrays.toString(sizes) + " are wanted");
        }
        name(name).appendDigits(value);
        return this;
    }

    RequestLine token(String name, Token value) {
        return bytes(name, value.bytes(), Token.SIZE);
    }

    RequestLine key(String name, Key value) {
        name(name);
        if (value instanceof Label label) {
            append("L:" + label.name());
        } else if (value instanceof Token token) {
            append("T:");
            appendDigits(token.bytes());
        } else {
            throw new IllegalArgumentException(name + ": a key is missing");
        }
        return this;
    }

    RequestLine label(String name, String value) {
        checkLabel(value);
        name(name).append(value);
        return this;
    }

    /** Where a key goes: under a label, or with null into the reply. */
    RequestLine to(String name, String value) {
        if (value != null) {
            checkLabel(value);
        }
        name(name).append(value == null ? "-" : "L:" + value);
        return this;
    }

    /** A text of which cca says whether it fits, but for what would end the field. */
    RequestLine text(String name, String value) {
        if (!value.isEmpty()) {
            checkLabel(value);
        }
        name(name).append(value);
        return this;
    }

    RequestLine points(String name, int value) {
        name(name).append("%08x".formatted(value));
        return this;
    }

    /** The line with its newline, in an array of its own. */
    byte[] taken() {
        bytes[length] = '\n';
        byte[] line = Arrays.copyOf(bytes, length + 1);
        wipe(bytes);
        return line;
    }
}
