package cca;

import java.io.IOException;
import java.net.UnixDomainSocketAddress;
import java.nio.ByteBuffer;
import java.nio.channels.SelectionKey;
import java.nio.channels.Selector;
import java.nio.channels.SocketChannel;
import java.util.Arrays;

/** A connection to the socket of a front, over which one request at a time is sent. */
final class Connection implements AutoCloseable {
    /** The bytes of the longest reply, with its newline. */
    private static final int LONGEST_REPLY = 66_581;
    /** Milliseconds until a full front is asked again. */
    private static final long PAUSE = 10;

    private final SocketChannel channel;
    private final Selector selector;
    private final SelectionKey key;
    private final byte[] taken = new byte[LONGEST_REPLY + 1];

    private Connection(SocketChannel channel) throws IOException {
        this.channel = channel;
        this.selector = Selector.open();
        this.key = channel.register(selector, 0);
    }

    /** Connects, also where the front has so many connections that it takes no more for some time. */
    static Connection to(UnixDomainSocketAddress address, long until) throws IOException, InterruptedException {
        while (true) {
            SocketChannel channel = SocketChannel.open(java.net.StandardProtocolFamily.UNIX);
            boolean isConnected = false;
            try {
                channel.configureBlocking(false);
                isConnected = channel.connect(address);
                if (isConnected) {
                    return new Connection(channel);
                }
            } finally {
                if (!isConnected) {
                    channel.close();
                }
            }
            if (System.nanoTime() - until >= 0) {
                throw new IOException("the front took no connection in time");
            }
            Thread.sleep(PAUSE);
        }
    }

    /** Whether nothing came that nobody asked for, and the front hasn't ended the connection. */
    State state() {
        try {
            int count = channel.read(ByteBuffer.wrap(taken, 0, 1));
            return count == 0 ? State.WAITS : count < 0 ? State.ENDED : State.SPOKE;
        } catch (IOException e) {
            return State.ENDED;
        }
    }

    /** What a connection does on which nothing is under way. */
    enum State {
        WAITS, ENDED, SPOKE
    }

    /** Sends a line, and reads the line that comes back, without its newline. */
    byte[] exchange(byte[] line, long until) throws IOException {
        try {
            send(ByteBuffer.wrap(line), until);
            return received(until);
        } finally {
            RequestLine.wipe(taken);
        }
    }

    private void send(ByteBuffer line, long until) throws IOException {
        channel.write(line);
        while (line.hasRemaining()) {
            await(SelectionKey.OP_WRITE, until, "the front took no request in time");
            channel.write(line);
        }
    }

    private byte[] received(long until) throws IOException {
        ByteBuffer reply = ByteBuffer.wrap(taken);
        int searched = 0;
        while (true) {
            await(SelectionKey.OP_READ, until, "the front sent no reply in time");
            if (channel.read(reply) < 0) {
                throw new IOException("the front ended the connection");
            }
            for (; searched < reply.position(); searched++) {
                if (taken[searched] == '\n') {
                    if (searched + 1 < reply.position()) {
                        throw new IOException("the front said more than it was asked");
                    }
                    return Arrays.copyOf(taken, searched);
                }
            }
            if (!reply.hasRemaining()) {
                throw new IOException("the front sent a reply without an end");
            }
        }
    }

    private void await(int event, long until, String why) throws IOException {
        key.interestOps(event);
        while (true) {
            long left = (until - System.nanoTime()) / 1_000_000;
            if (left <= 0) {
                throw new IOException(why);
            }
            if (selector.select(left) > 0) {
                selector.selectedKeys().clear();
                return;
            }
            if (Thread.currentThread().isInterrupted()) {
                throw new IOException("the thread was interrupted");
            }
        }
    }

    @Override
    public void close() {
        try (selector; channel) {
            RequestLine.wipe(taken);
        } catch (IOException e) {
            // the descriptor is gone all the same
        }
    }
}
