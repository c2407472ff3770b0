// License: GPL v2 or later. For details, see the file LICENSE.
package org.openstreetmap.josm.plugins.maproom;

import java.util.ArrayList;
import java.util.HashMap;
import java.util.LinkedHashMap;
import java.util.LinkedHashSet;
import java.util.List;
import java.util.Map;
import java.util.Objects;
import java.util.Set;
import java.util.function.Consumer;
import java.util.function.LongConsumer;

/**
 * A client's knowledge of a room: the mirror, and the messages without an answer. It knows no sockets, no clock and
 * no JOSM. It follows the class Core of clients/js/maproom.js, so nothing is done twice over broken connections. All
 * calls come from one thread.
 *
 * <p>{@link #take} returns calls to make, so that a fault in what they call is no fault of the room's message.
 */
final class RoomCore {
    /** No journal has an entry of this number, so an undo of it is never accepted. */
    private static final long NO_ENTRY = 9007199254740991L;

    /** Hears what happens to the mirror. */
    interface Listener {
        /**
         * An entry changed elements. The mirror has the change.
         * @param seq the number of the entry
         * @param author who made it
         * @param rows each element that differs
         */
        void changed(long seq, String author, List<Difference> rows);

        /**
         * Entries were missed, and the mirror was read anew.
         * @param seq the number of the mirror's last entry
         * @param restarted true if another run of the server answers, false if the same run does, null if nobody knows
         * @param rows each element that differs
         */
        void reset(long seq, Boolean restarted, List<Difference> rows);
    }

    /** A message that waits for its answer. */
    private static final class Asked {
        final long id;
        final Map<String, Object> message;
        final String text;
        final LongConsumer accepted;
        final Consumer<Answer> done;
        int timesSent;

        Asked(long id, Map<String, Object> message, LongConsumer accepted, Consumer<Answer> done) {
            this.id = id;
            this.message = message;
            this.accepted = accepted;
            this.done = done;
            Map<String, Object> whole = new LinkedHashMap<>();
            whole.put("id", id);
            whole.putAll(message);
            whole.put("id", id);
            text = Json.write(whole);
        }

        boolean isChange() {
            Object word = message.get("do");
            return !("get".equals(word) || "map".equals(word) || "undos".equals(word));
        }

        /** Returns whether the message has the number of an entry, which means nothing in another journal. */
        boolean namesAnEntry() {
            return message.containsKey("seq") || message.containsKey("since");
        }

        /** Returns the entry that the mirror needs before an answer is reported, or 0. */
        long entryOf(Answer answer) {
            if (answer.ok != null) return isChange() ? answer.seq() : 0;
            return "changed".equals(answer.why()) ? answer.with() : 0;
        }
    }

    /** The room sent something that cannot come next, for example news with a gap. Only a new session helps. */
    static final class OutOfStep extends RuntimeException {
        OutOfStep(String text) {
            super(text);
        }
    }

    /** The room refused the hello. */
    static final class HelloRefused extends RuntimeException {
        final transient Map<?, ?> no;

        HelloRefused(Map<?, ?> no) {
            super(Json.write(no));
            this.no = no;
        }
    }

    private enum Step { NOTHING, WELCOME, RUN, ANSWER }

    /** The mirror before entries were missed. */
    private static final class Gap {
        final Map<Name, Row> elements;
        final long seq;

        Gap(Map<Name, Row> elements, long seq) {
            this.elements = elements;
            this.seq = seq;
        }
    }

    /** An answer that names an entry whose news the mirror does not have yet. */
    private static final class Settling {
        final long entry;
        final Asked asked;
        final Answer answer;

        Settling(long entry, Asked asked, Answer answer) {
            this.entry = entry;
            this.asked = asked;
            this.answer = answer;
        }
    }

    private final String room;
    private final String author;
    private final int window;
    private final Listener listener;
    private long nextId;
    private Step step = Step.NOTHING;
    private Map<Name, Row> elements = new HashMap<>();
    /** The number of the mirror's last entry, and -1 before the first welcome. */
    private long seq = -1;
    private long acceptedId = -1;
    private long acceptedSeq = -1;
    private final Set<Asked> sent = new LinkedHashSet<>();
    private Set<Asked> queued = new LinkedHashSet<>();
    private final List<Settling> settling = new ArrayList<>();
    private final List<String> questions = new ArrayList<>();
    private Gap gap;

    /**
     * Makes a core without a session.
     * @param firstId the id of the first message, which no earlier run of the client used
     * @param window how many messages may be under way
     * @param listener hears of the mirror, by the calls that {@link #take} returns
     */
    RoomCore(String room, String author, long firstId, int window, Listener listener) {
        this.room = room;
        this.author = author;
        this.nextId = firstId;
        this.window = window;
        this.listener = listener;
    }

    /** Returns an element of the mirror, or null. */
    Row get(Name name) {
        return elements.get(name);
    }

    /** Returns the mirror. */
    Map<Name, Row> elements() {
        return elements;
    }

    /** Returns the number of the mirror's last entry, and -1 before the first welcome. */
    long seq() {
        return seq;
    }

    /** Returns whether the session has begun, so that a message goes out at once. */
    boolean isHere() {
        return step == Step.ANSWER;
    }

    /** Returns how many messages have no answer yet. */
    int pending() {
        return sent.size() + queued.size() + settling.size();
    }

    /** Begins a session. {@link #more} has its hello. */
    void begin() {
        end();
        step = Step.WELCOME;
        Map<String, Object> hello = new LinkedHashMap<>();
        hello.put("id", 1L);
        hello.put("do", "hello");
        hello.put("room", room);
        hello.put("name", author);
        questions.add(Json.write(hello));
    }

    /** Ends the session: the connection is gone. */
    void end() {
        step = Step.NOTHING;
        questions.clear();
        Set<Asked> waiting = new LinkedHashSet<>(sent);
        waiting.addAll(queued);
        queued = waiting;
        sent.clear();
    }

    /**
     * Adds a message. {@link #more} has it as soon as it can go out.
     * @param message its fields without the id
     * @param accepted hears the number of the entry as soon as the room accepted the message, before the entry's news
     * @param done hears the answer; the mirror has an accepted change by then, and the entry of a refusal `changed`
     */
    void ask(Map<String, Object> message, LongConsumer accepted, Consumer<Answer> done) {
        queued.add(new Asked(nextId++, message, accepted, done));
    }

    /** Asks something small, whose answer shows that the session is alive, if no other message is under way. */
    void probe() {
        if (isHere() && sent.isEmpty()) ask(Messages.probe(), entry -> { }, answer -> { });
    }

    /** Returns the texts to send now, in their order. Call it after each other call. */
    List<String> more() {
        List<String> texts = new ArrayList<>(questions);
        questions.clear();
        while (isHere() && !queued.isEmpty() && sent.size() < window) {
            Asked asked = queued.iterator().next();
            queued.remove(asked);
            asked.timesSent++;
            sent.add(asked);
            texts.add(asked.text);
        }
        return texts;
    }

    /**
     * Takes a message of the room.
     * @param received the message as {@link #read} returns it
     * @return the calls to make, in their order; each may ask something
     * @throws OutOfStep if a new session has to begin
     * @throws HelloRefused if the room refused the hello
     */
    List<Runnable> take(Object received) {
        List<Runnable> calls = new ArrayList<>();
        try {
            Map<?, ?> message = (Map<?, ?>) received;
            if (message.containsKey("news")) takeNews((Map<?, ?>) message.get("news"), calls);
            else if (step == Step.WELCOME) takeWelcome(message, calls);
            else if (step == Step.RUN) takeRun(message, calls);
            else if (step == Step.ANSWER) takeAnswer(message, calls);
        } catch (ClassCastException | NullPointerException | IllegalArgumentException | IndexOutOfBoundsException e) {
            OutOfStep fault = new OutOfStep("the room sent what a room does not send");
            fault.initCause(e);
            throw fault;
        }
        return calls;
    }

    /**
     * Reads a text of the room for {@link #take}. It takes long for a large map, and any thread may call it.
     * @return the message, with the elements of a map as rows; null if the text is no message
     */
    static Object read(String text) {
        try {
            Object message = Json.read(text);
            Object ok = message instanceof Map ? ((Map<?, ?>) message).get("ok") : null;
            if (!(ok instanceof Map) || !((Map<?, ?>) ok).containsKey("map")) return message;
            Map<Object, Object> read = new LinkedHashMap<>((Map<?, ?>) ok);
            read.put("map", rows((List<?>) read.get("map")));
            return Map.of("id", ((Map<?, ?>) message).get("id"), "ok", read);
        } catch (ClassCastException | NullPointerException | IllegalArgumentException | IndexOutOfBoundsException e) {
            return null;
        }
    }

    /** Returns the map of a welcome that {@link #read} returned, or null if the message is no welcome. */
    @SuppressWarnings("unchecked")
    static Map<Name, Row> mapOf(Object message) {
        Object ok = message instanceof Map ? ((Map<?, ?>) message).get("ok") : null;
        return ok instanceof Map ? (Map<Name, Row>) ((Map<?, ?>) ok).get("map") : null;
    }

    private static Map<Name, Row> rows(List<?> given) {
        Map<Name, Row> rows = new HashMap<>(given.size() * 2);
        for (Object each : given) {
            Row row = Row.read((Map<?, ?>) each);
            rows.put(row.name, row);
        }
        return rows;
    }

    private void takeWelcome(Map<?, ?> message, List<Runnable> calls) {
        if (message.containsKey("no")) throw new HelloRefused((Map<?, ?>) message.get("no"));
        Map<?, ?> ok = (Map<?, ?>) message.get("ok");
        long last = seq;
        Map<Name, Row> read = Objects.requireNonNull(mapOf(message));
        long readSeq = (Long) ok.get("seq");
        if (last >= 0 && gap == null) gap = new Gap(elements, last);
        elements = read;
        seq = readSeq;
        if (last < 0) {
            step = Step.ANSWER;
        } else if (seq < last) {
            goOn(true, calls);
        } else if (acceptedId < 0) {
            goOn(null, calls);
        } else {
            step = Step.RUN;
            questions.add("{\"id\":" + acceptedId + ",\"do\":\"undo\",\"seq\":" + NO_ENTRY + "}");
        }
    }

    /** Takes the answer to the restart question: the same run repeats the entry that spent the id. */
    private void takeRun(Map<?, ?> message, List<Runnable> calls) {
        Map<?, ?> no = message.get("no") instanceof Map ? (Map<?, ?>) message.get("no") : Map.of();
        long id = (Long) message.get("id");
        if (id != 0 && id != acceptedId || "memory".equals(no.get("why"))) {
            throw new OutOfStep("the server did not answer which run it is");
        }
        goOn(!("repeat".equals(no.get("why")) && Objects.equals(no.get("seq"), acceptedSeq)), calls);
    }

    private void goOn(Boolean restarted, List<Runnable> calls) {
        Gap last = gap;
        gap = null;
        step = Step.ANSWER;
        long now = seq;
        List<Difference> rows = differences(last.elements, elements);
        if (!rows.isEmpty() || Boolean.TRUE.equals(restarted) || now != last.seq) {
            calls.add(() -> listener.reset(now, restarted, rows));
        }
        settle(Long.MAX_VALUE, calls);
        if (restarted == null || restarted) {
            acceptedId = -1;
            acceptedSeq = -1;
            dropChanges(restarted != null, calls);
        }
    }

    /** Drops the messages that were meant for another journal, or may have been. */
    private void dropChanges(boolean restarted, List<Runnable> calls) {
        Set<Asked> waiting = queued;
        queued = new LinkedHashSet<>();
        for (Asked asked : waiting) {
            if (asked.isChange() && (asked.timesSent > 0 || restarted || asked.namesAnEntry())) {
                Answer answer = new Answer(null, Map.of("why", asked.timesSent > 0 ? "unknown" : "not_sent"));
                calls.add(() -> asked.done.accept(answer));
            } else {
                queued.add(asked);
            }
        }
    }

    private void takeAnswer(Map<?, ?> message, List<Runnable> calls) {
        Asked asked = sent.isEmpty() ? null : sent.iterator().next();
        long id = (Long) message.get("id");
        if (asked == null || id != 0 && id != asked.id) {
            throw new OutOfStep("the room answered a message that was not sent");
        }
        Map<?, ?> no = (Map<?, ?>) message.get("no");
        // A repeat of a message that was sent before is its lost answer.
        boolean isLate = no != null && asked.timesSent > 1 && "repeat".equals(no.get("why"));
        Answer answer = isLate ? new Answer(Map.of("seq", no.get("seq")), null)
                : new Answer((Map<?, ?>) message.get("ok"), no);
        if (answer.ok == null && answer.no == null) throw new OutOfStep("the room's answer is no answer");
        long entry = asked.entryOf(answer);
        sent.remove(asked);
        if (answer.ok != null && asked.isChange()) {
            acceptedId = asked.id;
            acceptedSeq = entry;
            calls.add(() -> asked.accepted.accept(entry));
        }
        if (entry > seq) settling.add(new Settling(entry, asked, answer));
        else calls.add(() -> asked.done.accept(answer));
    }

    private void takeNews(Map<?, ?> news, List<Runnable> calls) {
        long entry = (Long) news.get("seq");
        if (step == Step.NOTHING) return;
        if (step == Step.WELCOME || entry != seq + 1) {
            throw new OutOfStep("the news of entry " + entry + " came after " + seq);
        }
        String by = (String) Objects.requireNonNull(news.get("by"));
        List<Difference> rows = new ArrayList<>();
        for (Object each : (List<?>) news.get("rows")) {
            Map<?, ?> row = (Map<?, ?>) each;
            Name name = Name.of((String) row.get("el"));
            rows.add(new Difference(name, elements.get(name), row.containsKey("gone") ? null : Row.read(row)));
        }
        seq = entry;
        for (Difference row : rows) {
            if (row.after == null) elements.remove(row.name);
            else elements.put(row.name, row.after);
        }
        if (gap == null) {
            calls.add(() -> listener.changed(entry, by, rows));
            settle(entry, calls);
        }
    }

    /** Reports the answers that name entries up to this one. */
    private void settle(long upTo, List<Runnable> calls) {
        while (!settling.isEmpty() && settling.get(0).entry <= upTo) {
            Settling each = settling.remove(0);
            calls.add(() -> each.asked.done.accept(each.answer));
        }
    }

    private static List<Difference> differences(Map<Name, Row> before, Map<Name, Row> after) {
        List<Difference> rows = new ArrayList<>();
        before.forEach((name, row) -> {
            Row now = after.get(name);
            if (!row.equals(now)) rows.add(new Difference(name, row, now));
        });
        after.forEach((name, row) -> {
            if (!before.containsKey(name)) rows.add(new Difference(name, null, row));
        });
        return rows;
    }
}
