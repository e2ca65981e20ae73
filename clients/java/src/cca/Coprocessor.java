package cca;

import java.io.IOException;
import java.net.UnixDomainSocketAddress;
import java.nio.charset.StandardCharsets;
import java.nio.file.Path;
import java.time.Duration;
import java.util.ArrayList;
import java.util.List;
import java.util.concurrent.locks.ReentrantLock;

/**
 * The socket of a front, which names the role. It is connected by the first request, and again after the connection has ended.
 * Threads may share it; each request waits for the one before.
 *
 * <p>Each form of a request has a method, which {@link Requests} lists. Those here take and give whole data.
 */
public final class Coprocessor extends Requests implements AutoCloseable {
    /** The most bytes of data that one request takes, and one segment. */
    private static final int LONGEST_TEXT = 4_096;
    private static final int LONGEST_SEGMENT = 4_088;
    private static final int BLOCK = 8;
    private static final Duration PATIENCE = Duration.ofSeconds(300);
    private static final String PADDED = "X9.23";

    private final UnixDomainSocketAddress address;
    private final Duration patience;
    private final ReentrantLock turn = new ReentrantLock();
    private Connection connection;

    /** A socket of the front. A reply has 300 seconds to come: REENCIPHER of a full store syncs the drive some 2,000 times. */
    public Coprocessor(Path socket) {
        this(socket, PATIENCE);
    }

    /** The same, where a connection and a reply may take so long. */
    public Coprocessor(Path socket, Duration patience) {
        this.address = UnixDomainSocketAddress.of(socket);
        this.patience = patience;
    }

    // ---- whole data

    /** Encipher in CBC mode, with pad {@code NONE} or {@code X9.23}: the ciphertext. Long data is sent in segments. */
    public Data encipher(Key key, byte[] data, byte[] iv, String pad) {
        int longest = pad.equals(PADDED) ? LONGEST_TEXT - 1 : LONGEST_TEXT; // padding must have room
        if (data.length <= longest) {
            return whole(csnbenc(key, iv, pad, data), ciphertextSize(data.length, pad));
        }
        return joined(data, ciphertextSize(data.length, pad), (place, segment, chain) -> switch (place) {
            case FIRST -> csnbencFirst(key, iv, segment);
            case MIDDLE -> csnbencMiddle(key, chain, segment);
            case LAST -> csnbencLast(key, chain, pad, segment);
        });
    }

    /** Decipher in CBC mode, with pad {@code NONE} or {@code X9.23}: the plaintext. Long data is sent in segments. */
    public Data decipher(Key key, byte[] data, byte[] iv, String pad) {
        int size = pad.equals(PADDED) ? -1 : data.length; // what was padded is told by the reply
        if (data.length <= LONGEST_TEXT) {
            return whole(csnbdec(key, iv, pad, data), size);
        }
        return joined(data, size, (place, segment, chain) -> switch (place) {
            case FIRST -> csnbdecFirst(key, iv, segment);
            case MIDDLE -> csnbdecMiddle(key, chain, segment);
            case LAST -> csnbdecLast(key, chain, pad, segment);
        });
    }

    /** MAC_Generate: the leftmost 4, 6 or 8 bytes of the MAC by rule {@code X9.9-1} or {@code X9.19OPT}. */
    public Data macGenerate(Key key, byte[] data, String rule, int length) {
        String size = Integer.toString(length);
        Reply reply = data.length <= LONGEST_TEXT
                ? csnbmgn(key, rule, size, data)
                : last(data, (place, segment, chain) -> switch (place) {
                    case FIRST -> csnbmgnFirst(key, rule, segment);
                    case MIDDLE -> csnbmgnMiddle(key, rule, chain, segment);
                    case LAST -> csnbmgnLast(key, rule, size, chain, segment);
                });
        return checked(() -> new Data(reply.bytes("mac", length), reply.usedOldKey()));
    }

    /** MAC_Verify: whether 4, 6 or 8 bytes are the leftmost ones of the MAC. */
    public boolean macVerify(Key key, byte[] data, byte[] mac, String rule) {
        Reply reply = data.length <= LONGEST_TEXT
                ? csnbmvr(key, rule, mac, data)
                : last(data, (place, segment, chain) -> switch (place) {
                    case FIRST -> csnbmvrFirst(key, rule, segment);
                    case MIDDLE -> csnbmvrMiddle(key, rule, chain, segment);
                    case LAST -> csnbmvrLast(key, rule, mac, chain, segment);
                });
        return checked(() -> switch (reply.text("match")) {
            case "yes" -> true;
            case "no" -> false;
            default -> throw new Unexpected("neither yes nor no");
        });
    }

    /** Key_Test: the key check value (KCV), 4 bytes, of which most systems show the first 3. */
    public Data keyTest(Key key) {
        Reply reply = csnbkyt(key);
        return checked(() -> new Data(reply.bytes("value", 4), reply.usedOldKey()));
    }

    /** Key_Record_List: the labels that begin with a prefix. */
    public List<Label> recordList(String prefix) {
        Reply reply = csnbkrl(prefix);
        return checked(() -> {
            List<Label> labels = new ArrayList<>();
            for (String name : reply.text("labels").split(",")) {
                if (!name.isEmpty()) {
                    labels.add(new Label(name));
                }
            }
            if (labels.size() != reply.number("count")) {
                throw new Unexpected("not as many labels as it says");
            }
            return labels;
        });
    }

    // ---- segments

    private enum Place {
        FIRST, MIDDLE, LAST
    }

    /** Asks for one segment, with the chaining value of the one before. */
    private interface Segment {
        Reply ask(Place place, byte[] segment, byte[] chain);
    }

    /** Takes the reply to a segment. */
    private interface Taker {
        void take(Reply reply);
    }

    /** Sends data in segments, at least two. */
    private void inSegments(byte[] data, Segment segment, Taker taker) {
        byte[] chain = null;
        for (int at = 0; at < data.length; at += LONGEST_SEGMENT) {
            int end = Math.min(data.length, at + LONGEST_SEGMENT);
            Place place = at == 0 ? Place.FIRST : end == data.length ? Place.LAST : Place.MIDDLE;
            byte[] piece = java.util.Arrays.copyOfRange(data, at, end);
            Reply reply = segment.ask(place, piece, chain);
            RequestLine.wipe(piece);
            chain = place == Place.LAST ? null : checked(() -> reply.bytes("chain", 2 * BLOCK));
            taker.take(reply);
        }
    }

    /** The reply to the last segment. */
    private Reply last(byte[] data, Segment segment) {
        Reply[] last = new Reply[1];
        inSegments(data, segment, reply -> last[0] = reply);
        return last[0];
    }

    /** The texts of the replies to all segments, as one; of this size, where it is known. */
    private Data joined(byte[] data, int size, Segment segment) {
        byte[] texts = new byte[data.length + BLOCK];
        int[] length = {0};
        boolean[] isOld = {false};
        inSegments(data, segment, reply -> {
            byte[] text = checked(() -> reply.bytes("text"));
            if (text.length > texts.length - length[0]) {
                throw unexpected();
            }
            System.arraycopy(text, 0, texts, length[0], text.length);
            length[0] += text.length;
            isOld[0] |= reply.usedOldKey();
            RequestLine.wipe(text);
            reply.wipe();
        });
        return sized(java.util.Arrays.copyOf(texts, length[0]), size, isOld[0], data.length);
    }

    private Data whole(Reply reply, int size) {
        byte[] text = checked(() -> reply.bytes("text"));
        reply.wipe();
        return sized(text, size, reply.usedOldKey(), LONGEST_TEXT);
    }

    /** The text, where it has the size that it must have: that of padded plaintext isn't known. */
    private Data sized(byte[] text, int size, boolean isOld, int most) {
        if (size >= 0 ? text.length != size : text.length >= most) {
            throw unexpected();
        }
        return new Data(text, isOld);
    }

    private static int ciphertextSize(int size, String pad) {
        return pad.equals(PADDED) ? size - size % BLOCK + BLOCK : size;
    }

    // ---- requests

    /** The reply to a request line, which names no role. */
    public String ask(String request) {
        return new String(exchange(RequestLine.whole(request)), StandardCharsets.ISO_8859_1);
    }

    @Override
    Reply ask(RequestLine request, String... wanted) {
        byte[] line = exchange(request);
        return checked(() -> Reply.read(line, wanted));
    }

    /** What a reply holds. Where it isn't one of this request's the connection is closed: what sent it is out of step. */
    private <T> T checked(java.util.function.Supplier<T> value) {
        try {
            return value.get();
        } catch (Unexpected | IllegalArgumentException e) {
            close();
            throw e instanceof Unexpected ? e : new Unexpected("a reply that no such request gets");
        }
    }

    private Unexpected unexpected() {
        close();
        return new Unexpected("a text of another length");
    }

    private byte[] exchange(RequestLine request) {
        byte[] line = request.taken();
        turn.lock();
        try {
            return answered(line, System.nanoTime() + patience.toNanos());
        } finally {
            turn.unlock();
            RequestLine.wipe(line);
        }
    }

    /** A line that begins with two hyphens and a blank is the front's own: it carried out neither this request nor one behind it. */
    private byte[] answered(byte[] line, long until) {
        connect(until);
        byte[] reply;
        try {
            reply = connection.exchange(line, until);
        } catch (IOException | RuntimeException e) {
            drop();
            throw new Ended(e.getMessage() == null ? "the connection failed" : e.getMessage(), true);
        }
        if (reply.length >= 3 && reply[0] == '-' && reply[1] == '-' && reply[2] == ' ') {
            drop();
            throw new Ended("the front ends", false);
        }
        return reply;
    }

    /** Makes a connection on which nothing is under way. One that the front has ended, since it was silent, is made anew. */
    private void connect(long until) {
        Connection.State state = connection == null ? Connection.State.ENDED : connection.state();
        if (state != Connection.State.WAITS) {
            drop();
        }
        if (state == Connection.State.SPOKE) {
            throw new Ended("the front said what it wasn't asked", false);
        }
        if (connection == null) {
            try {
                connection = Connection.to(address, until);
            } catch (IOException e) {
                throw new Ended("no connection: " + e.getMessage(), false);
            } catch (InterruptedException e) {
                Thread.currentThread().interrupt();
                throw new Ended("the thread was interrupted", false);
            }
        }
    }

    private void drop() {
        if (connection != null) {
            connection.close();
            connection = null;
        }
    }

    /** Ends the connection, once a request that is under way has its reply. The next request connects again. */
    @Override
    public void close() {
        turn.lock();
        try {
            drop();
        } finally {
            turn.unlock();
        }
    }
}
