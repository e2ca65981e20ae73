package cca;

import java.nio.charset.StandardCharsets;
import java.util.Collections;
import java.util.LinkedHashMap;
import java.util.Map;
import java.util.Set;

/** The fields of a reply to a request that was carried out. What they hold may be secret: {@code toString} tells their names alone. */
public final class Reply {
    private static final String WARNING = "warn=old";

    private final byte[] line;
    private final Map<String, Span> fields = new LinkedHashMap<>();
    private boolean isOld;

    /** Where the value of a field stands. */
    private record Span(int start, int end) {
    }

    private Reply(byte[] line) {
        this.line = line;
    }

    /**
     * Reads a reply line to a request whose reply has these fields; a field may have one of several names, as {@code token|stored}.
     */
    static Reply read(byte[] line, String... wanted) {
        if (line.length >= 3 && line[0] == 'N' && line[1] == 'O' && line[2] == ' ') {
            throw refusal(line);
        }
        Reply reply = new Reply(line);
        reply.split();
        int at = 0;
        for (String name : reply.fields.keySet()) {
            if (at == wanted.length || !("|" + wanted[at] + "|").contains("|" + name + "|")) {
                throw new Unexpected("a reply with other fields");
            }
            at++;
        }
        if (at != wanted.length) {
            throw new Unexpected("a reply with other fields");
        }
        return reply;
    }

    /** NO, two digits that are a rule, and a field. */
    private static RuntimeException refusal(byte[] line) {
        String text = new String(line, StandardCharsets.ISO_8859_1);
        if (!text.matches("NO (0[1-9]|[1-2][0-9]|3[0-6]) (-|[a-z0-9]{1,11})")) {
            return new Unexpected("a refusal that isn't one");
        }
        return new Refused(Integer.parseInt(text.substring(3, 5)), text.substring(6));
    }

    /** OK and its fields, each behind a blank. */
    private void split() {
        if (line.length < 2 || line[0] != 'O' || line[1] != 'K') {
            throw new Unexpected("neither OK nor a refusal");
        }
        for (int start = 2; start < line.length;) {
            int end = indexOf((byte) ' ', start + 1);
            if (line[start] != ' ' || isOld) {
                throw new Unexpected("a reply that isn't one");
            }
            put(start + 1, end);
            start = end;
        }
    }

    /** Notes the field that stands there, or the warning, which stands last. */
    private void put(int start, int end) {
        int equals = indexOf((byte) '=', start);
        if (equals >= end) {
            throw new Unexpected("a reply that isn't one");
        }
        if (new String(line, start, Math.min(end - start, WARNING.length() + 1), StandardCharsets.ISO_8859_1).equals(WARNING)) {
            isOld = true;
        } else if (fields.put(new String(line, start, equals - start, StandardCharsets.ISO_8859_1), new Span(equals + 1, end)) != null) {
            throw new Unexpected("a reply with a field twice");
        }
    }

    private int indexOf(byte wanted, int start) {
        int at = start;
        while (at < line.length && line[at] != wanted) {
            at++;
        }
        return at;
    }

    private Span span(String name) {
        Span span = fields.get(name);
        if (span == null) {
            throw new IllegalArgumentException("the reply has no field " + name);
        }
        return span;
    }

    /** Whether a key of the request is under the old master key. It still works, until the next SET. */
    public boolean usedOldKey() {
        return isOld;
    }

    /** The names of the fields, in their order. */
    public Set<String> names() {
        return Collections.unmodifiableSet(fields.keySet());
    }

    /** Whether the reply has a field of this name. */
    public boolean has(String name) {
        return fields.containsKey(name);
    }

    /** A field, as the reply has it. */
    public String text(String name) {
        Span span = span(name);
        return new String(line, span.start, span.end - span.start, StandardCharsets.ISO_8859_1);
    }

    /** A number. */
    public int number(String name) {
        String text = text(name);
        if (!text.matches("[0-9]{1,9}")) {
            throw new Unexpected("no number");
        }
        return Integer.parseInt(text);
    }

    /** The bytes that a field has in hexadecimal digits. */
    public byte[] bytes(String name) {
        Span span = span(name);
        byte[] bytes = new byte[(span.end - span.start) / 2];
        for (int at = span.start; at < span.end; at++) {
            int digit = digit(line[at]);
            if (digit < 0 || (span.end - span.start) % 2 != 0) {
                RequestLine.wipe(bytes);
                throw new Unexpected("a value that isn't bytes in hexadecimal digits");
            }
            bytes[(at - span.start) / 2] |= (byte) ((at - span.start) % 2 == 0 ? digit << 4 : digit);
        }
        return bytes;
    }

    /** The same, where there are so many. */
    byte[] bytes(String name, int size) {
        byte[] bytes = bytes(name);
        if (bytes.length != size) {
            RequestLine.wipe(bytes);
            throw new Unexpected("a value that isn't " + size + " bytes in hexadecimal digits");
        }
        return bytes;
    }

    /** The key that a request made: under the label that it named, or as a token. */
    public Key key(String name) {
        return has("stored") ? new Label(text("stored")) : token(name);
    }

    /** A token. */
    public Token token(String name) {
        return new Token(bytes(name, Token.SIZE));
    }

    /** Only digits in lower case are sent. */
    private static int digit(byte it) {
        return it >= '0' && it <= '9' ? it - '0' : it >= 'a' && it <= 'f' ? it - 'a' + 10 : -1;
    }

    /** Makes the line zero, once its values are taken. */
    void wipe() {
        RequestLine.wipe(line);
    }

    @Override
    public String toString() {
        return "Reply" + fields.keySet() + (isOld ? " of an old key" : "");
    }
}
