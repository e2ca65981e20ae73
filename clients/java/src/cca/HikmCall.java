package cca;

import java.nio.charset.StandardCharsets;
import java.util.Arrays;

/**
 * A call of {@link Hikm}: its parameters are read, and what is wrong with one of them first stays. The numbers are those of
 * clients/c/csnb.h.
 */
final class HikmCall {
    static final int OLD_KEY = 10001;
    static final int MISMATCH = 1;
    static final int MISSING = 101;
    static final int EXIT_DATA = 102;
    static final int KEYWORD = 103;
    static final int KEYWORDS = 104;
    static final int KEY = 105;
    static final int LABEL = 106;
    static final int LENGTH = 107;
    static final int PAD = 108;
    static final int KEY_TYPE = 109;
    static final int LIST = 110;
    static final int UNSAYABLE = 111;
    private static final int NOT_DONE = 1000;
    private static final int IN_DOUBT = 2000;
    private static final int WORD = 8;
    private static final int LABEL_SIZE = 64;
    private static final int MOST_WORDS = 16;

    private final Coprocessor cca;
    private int code;
    private int reason;
    private String[] words = {};
    private final boolean[] used = new boolean[MOST_WORDS];
    private boolean isWordMissing;

    /** What a verb does once its parameters are read. */
    interface Request {
        /** Asks; whether a key is under the old master key. */
        boolean ask(Coprocessor cca);
    }

    /** A call whose parameters are there, but for these. */
    HikmCall(Coprocessor cca, hikmNativeLong exitDataLength, Object... needed) {
        this.cca = cca;
        if (Arrays.asList(needed).contains(null)) {
            fault(MISSING);
        }
        if (exitDataLength != null && exitDataLength.getValue() != 0) {
            fault(EXIT_DATA);
        }
    }

    /** Notes what is wrong with a parameter; the first fault stays. */
    void fault(int number) {
        if (code == 0) {
            code = 8;
            reason = number;
        }
    }

    /** The verb was carried out, and doesn't match. */
    void mismatch() {
        code = 4;
        reason = MISMATCH;
    }

    boolean isFaulty() {
        return code != 0;
    }

    // ---- parameters

    /** A field of a fixed size without the blanks at its end. */
    static String text(byte[] field, int start, int size) {
        return new String(field, start, Math.min(size, field.length - start), StandardCharsets.ISO_8859_1).stripTrailing();
    }

    /** The same the other way. */
    static void fill(byte[] field, int start, int size, String text) {
        byte[] bytes = text.getBytes(StandardCharsets.ISO_8859_1);
        Arrays.fill(field, start, start + size, (byte) ' ');
        System.arraycopy(bytes, 0, field, start, Math.min(bytes.length, size));
    }

    /** Takes the keywords. Each group of them is then asked for, and the rest is refused. */
    HikmCall words(hikmNativeLong count, byte[] array) {
        int number = count == null ? 0 : count.getValue();
        if (count == null || (number > 0 && array == null)) {
            fault(MISSING);
        } else if (number < 0 || number > MOST_WORDS || (array != null && array.length < number * WORD)) {
            fault(KEYWORDS);
        } else {
            words = new String[number];
            Arrays.setAll(words, at -> text(array, at * WORD, WORD));
        }
        return this;
    }

    /** The one of a group that stands among the keywords, or else this; where that is null one must be there. */
    String choose(String otherwise, String... group) {
        String chosen = null;
        for (int at = 0; at < words.length; at++) {
            if (Arrays.asList(group).contains(words[at])) {
                if (chosen != null) {
                    fault(KEYWORDS);
                }
                chosen = words[at];
                used[at] = true;
            }
        }
        isWordMissing |= chosen == null && otherwise == null;
        return chosen == null ? otherwise : chosen;
    }

    /** A label of 64 bytes, filled with blanks. */
    Label label(byte[] field) {
        if (field == null) {
            fault(MISSING);
            return null;
        }
        try {
            return new Label(text(field, 0, LABEL_SIZE));
        } catch (IllegalArgumentException e) {
            fault(LABEL);
            return null;
        }
    }

    /** A key identifier that must name a key: a token, or a label. */
    Key key(byte[] identifier) {
        if (identifier == null) {
            fault(MISSING);
            return null;
        }
        if (identifier.length == 0 || identifier[0] == 0) {
            fault(KEY);
            return null;
        }
        return identifier[0] > 0 && identifier[0] <= 2 ? token(identifier) : label(identifier);
    }

    /** A token of 64 bytes. */
    Token token(byte[] field) {
        if (field == null || field.length < Token.SIZE) {
            fault(field == null ? MISSING : LENGTH);
            return null;
        }
        return new Token(Arrays.copyOf(field, Token.SIZE));
    }

    /** The label under which a key goes, where a key identifier says so; else null, and a token comes in its place. */
    String target(byte[] identifier) {
        if (identifier == null || identifier.length < Token.SIZE) {
            fault(identifier == null ? MISSING : LENGTH);
            return null;
        }
        if (identifier[0] >= 0 && identifier[0] <= 2) {
            return null;
        }
        Label label = label(identifier);
        return label == null ? null : label.name();
    }

    /** The first bytes of a parameter, as many as a length says. */
    byte[] data(byte[] field, hikmNativeLong length) {
        if (length == null || (field == null && length.getValue() != 0)) {
            fault(MISSING);
        } else if (length.getValue() < 0 || (field != null && field.length < length.getValue())) {
            fault(LENGTH);
        } else {
            return field == null ? new byte[0] : Arrays.copyOf(field, length.getValue());
        }
        return new byte[0];
    }

    /** The first bytes of a parameter that has so many. */
    byte[] data(byte[] field, int size) {
        return data(field, new hikmNativeLong(size));
    }

    /** Whether an output has so much room. */
    boolean hasRoom(byte[] field, int size) {
        if (field == null || field.length < size) {
            fault(field == null ? MISSING : LENGTH);
            return false;
        }
        return true;
    }

    // ---- the end

    /** Asks cca, unless something is wrong, and sets the return code and its reason. Whether the request was carried out. */
    boolean ask(hikmNativeLong returnCode, hikmNativeLong reasonCode, Request request) {
        for (int at = 0; at < words.length; at++) {
            if (!used[at]) {
                fault(KEYWORD);
            }
        }
        if (isWordMissing) {
            fault(KEYWORDS);
        }
        boolean isDone = code == 0 && isAsked(request);
        returnCode.setValue(code);
        reasonCode.setValue(reason);
        return isDone;
    }

    private boolean isAsked(Request request) {
        try {
            boolean isOld = request.ask(cca);
            if (code == 0) {
                reason = isOld ? OLD_KEY : 0;
            }
            return true;
        } catch (Refused e) {
            code = 8;
            reason = e.rule();
        } catch (Ended e) {
            code = 12;
            reason = e.isInDoubt() ? IN_DOUBT : NOT_DONE;
        } catch (Unexpected e) {
            code = 12;
            reason = IN_DOUBT;
        } catch (IllegalArgumentException e) {
            code = 8;
            reason = UNSAYABLE;
        }
        return false;
    }
}
