// License: GPL v2 or later. For details, see the file LICENSE.
package org.openstreetmap.josm.plugins.maproom;

import java.net.URI;
import java.net.http.HttpClient;
import java.net.http.WebSocket;
import java.net.http.WebSocketHandshakeException;
import java.nio.charset.StandardCharsets;
import java.time.Duration;
import java.util.ArrayDeque;
import java.util.Base64;
import java.util.Deque;
import java.util.List;
import java.util.Map;
import java.util.concurrent.CompletionStage;
import java.util.concurrent.Executor;
import java.util.concurrent.Executors;
import java.util.concurrent.ScheduledExecutorService;
import java.util.concurrent.TimeUnit;
import java.util.function.Consumer;
import java.util.function.LongConsumer;

import org.openstreetmap.josm.tools.Logging;

/**
 * A room over a WebSocket. It connects again when the connection breaks, and sends again what has no answer. All its
 * methods, and all calls to its listener but {@link Listener#prepare}, are on one thread, which `loop` stands for.
 */
final class RoomConnection {
    /** How many milliseconds pass before the next attempt to connect: at first, and at most. */
    private static final long SOON = 100;
    private static final long LATE = 5000;
    /** After how many silent seconds the room is asked something, and after how many the connection is given up. */
    private static final int QUIET_SECONDS = 5;
    private static final int DEAD_SECONDS = 15;
    /** How long the map may take to begin to come: it can be large, and all workers of the server can be taken. */
    private static final int WELCOME_SECONDS = 60;
    /** How many messages may be under way. */
    private static final int WINDOW = 16;

    enum State { CONNECTING, OPEN, CLOSED }

    /** Hears what happens in the room. */
    interface Listener extends RoomCore.Listener {
        /**
         * The first map has come. This call is on a thread of the socket, because a map can be large. All other calls
         * come after it.
         */
        void prepare(Map<Name, Row> map);

        /** The first session has begun: the mirror has the map. */
        void entered();

        /** The connection broke, or a session has begun. */
        void stateChanged();

        /** The room was left, or it could not be joined. `why` is null after {@link #close}. */
        void ended(String why);
    }

    private final URI uri;
    private final String authorization;
    private final Executor loop;
    private final Listener listener;
    private final RoomCore core;
    private final HttpClient client = HttpClient.newBuilder().connectTimeout(Duration.ofSeconds(10)).build();
    private final ScheduledExecutorService clock = Executors.newSingleThreadScheduledExecutor(task -> {
        Thread thread = new Thread(task, "maproom-clock");
        thread.setDaemon(true);
        return thread;
    });

    private State state = State.CONNECTING;
    private volatile boolean isThere;
    private int session;
    private WebSocket socket;
    private final Deque<String> outbox = new ArrayDeque<>();
    private boolean isSending;
    private long pause = SOON;
    private int texts;
    private volatile int silentSeconds;

    /**
     * Makes a connection that is not open yet.
     * @param address the server's address, perhaps with a name and a password for HTTP Basic
     * @param loop runs something on the thread of all calls, after those that it was given before
     */
    RoomConnection(String address, String room, String author, Executor loop, Listener listener) {
        URI given = URI.create(address);
        String user = given.getUserInfo();
        authorization = user == null ? null
                : "Basic " + Base64.getEncoder().encodeToString(user.getBytes(StandardCharsets.UTF_8));
        uri = user == null ? given : URI.create(address.replaceFirst("//[^/]*@", "//"));
        this.loop = loop;
        this.listener = listener;
        // Ids are spent for the life of the room, so each run begins above those of earlier runs.
        core = new RoomCore(room, author, System.currentTimeMillis() * 1000, WINDOW, listener);
    }

    RoomCore core() {
        return core;
    }

    State state() {
        return state;
    }

    /** Begins the first session. */
    void open() {
        clock.scheduleWithFixedDelay(() -> {
            silentSeconds++;
            loop.execute(this::watch);
        }, 1, 1, TimeUnit.SECONDS);
        begin();
    }

    /** Leaves the room. */
    void close() {
        end(null);
    }

    /** Leaves the room, because a mapper cannot work in it. */
    void giveUp(String why) {
        end(why);
    }

    /** Sends a message without its id, as {@link RoomCore#ask}. */
    void ask(Map<String, Object> message, LongConsumer accepted, Consumer<Answer> done) {
        core.ask(message, accepted, done);
        send();
    }

    private void begin() {
        if (state == State.CLOSED) return;
        int mine = ++session;
        outbox.clear();
        isSending = false;
        texts = 0;
        silentSeconds = 0;
        WebSocket.Builder builder = client.newWebSocketBuilder().connectTimeout(Duration.ofSeconds(10));
        if (authorization != null) builder.header("Authorization", authorization);
        builder.buildAsync(uri, new Ear(mine)).whenComplete((made, fault) -> loop.execute(() -> {
            if (mine != session || state == State.CLOSED) {
                if (made != null) made.abort();
            } else if (fault != null) {
                again(inWords(fault.getCause() != null ? fault.getCause() : fault));
            } else {
                socket = made;
                core.begin();
                send();
            }
        }));
    }

    private static String inWords(Throwable fault) {
        if (fault instanceof WebSocketHandshakeException) {
            int status = ((WebSocketHandshakeException) fault).getResponse().statusCode();
            return status == 401 ? "the name or the password is wrong" : "the server answered with status " + status;
        }
        return fault.getMessage() != null ? fault.getMessage() : fault.toString();
    }

    /** Ends a session, and begins another one after a pause. The first one has to begin. */
    private void again(String why) {
        drop();
        if (!isThere) {
            end("no connection to " + uri + ": " + why);
            return;
        }
        become(State.CONNECTING);
        pause = texts > 2 ? SOON : pause;
        clock.schedule(() -> loop.execute(this::begin), pause, TimeUnit.MILLISECONDS);
        pause = Math.min(2 * pause, LATE);
    }

    private void drop() {
        session++;
        core.end();
        if (socket != null) socket.abort();
        socket = null;
        outbox.clear();
    }

    private void end(String why) {
        if (state == State.CLOSED) return;
        if (why == null && socket != null) socket.sendClose(WebSocket.NORMAL_CLOSURE, "");
        else drop();
        session++;
        clock.shutdown();
        become(State.CLOSED);
        listener.ended(why);
    }

    private void become(State next) {
        if (state == next) return;
        state = next;
        listener.stateChanged();
    }

    /** Asks something small when nothing came for a while, and begins anew when nothing comes for long. */
    private void watch() {
        if (state == State.CLOSED || socket == null) return;
        if (silentSeconds > (core.isHere() ? DEAD_SECONDS : WELCOME_SECONDS)) {
            again("the server is silent");
        } else if (silentSeconds > QUIET_SECONDS) {
            core.probe();
            send();
        }
    }

    private void send() {
        if (socket == null) return;
        outbox.addAll(core.more());
        if (isSending || outbox.isEmpty()) return;
        isSending = true;
        int mine = session;
        socket.sendText(outbox.poll(), true).whenComplete((done, fault) -> loop.execute(() -> {
            if (mine != session) return;
            isSending = false;
            if (fault != null) again(fault.toString());
            else send();
        }));
    }

    private void take(Object received) {
        texts++;
        List<Runnable> calls;
        try {
            calls = core.take(received);
        } catch (RoomCore.HelloRefused refused) {
            if (isThere && "memory".equals(refused.no.get("why"))) again(refused.getMessage());
            else end(Reasons.inWords(refused.no, name -> null, entry -> null));
            return;
        } catch (RoomCore.OutOfStep fault) {
            Logging.warn("maproom: {0} {1}", fault.getMessage(), fault.getCause());
            again(fault.getMessage());
            return;
        }
        if (core.isHere() && !isThere) {
            isThere = true;
            call(listener::entered);
        }
        calls.forEach(this::call);
        send();
        if (core.isHere() && state != State.CLOSED) become(State.OPEN);
    }

    /** Makes a call. A fault in it is none of the room's: JOSM reports it, and the session goes on. */
    private void call(Runnable call) {
        try {
            call.run();
        } catch (RuntimeException fault) {
            loop.execute(() -> {
                throw fault;
            });
        }
    }

    /** Puts the parts of a text together, and reads it on the socket's thread, because a map can be large. */
    private final class Ear implements WebSocket.Listener {
        private final int mine;
        private StringBuilder parts = new StringBuilder();

        Ear(int mine) {
            this.mine = mine;
        }

        @Override
        public CompletionStage<?> onText(WebSocket from, CharSequence data, boolean isLast) {
            silentSeconds = 0;
            parts.append(data);
            if (isLast) {
                Object message = RoomCore.read(parts.toString());
                parts = new StringBuilder();
                Map<Name, Row> map = isThere ? null : RoomCore.mapOf(message);
                if (map != null) call(() -> listener.prepare(map));
                silentSeconds = 0;
                loop.execute(() -> {
                    if (mine == session) take(message);
                });
            }
            from.request(1);
            return null;
        }

        @Override
        public CompletionStage<?> onClose(WebSocket from, int status, String reason) {
            loop.execute(() -> {
                if (mine == session) again("the server closed the connection (" + status + ")");
            });
            return null;
        }

        @Override
        public void onError(WebSocket from, Throwable fault) {
            loop.execute(() -> {
                if (mine == session) again(fault.toString());
            });
        }
    }
}
