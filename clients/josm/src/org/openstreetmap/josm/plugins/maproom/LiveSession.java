// License: GPL v2 or later. For details, see the file LICENSE.
package org.openstreetmap.josm.plugins.maproom;

import java.util.ArrayList;
import java.util.Collection;
import java.util.HashSet;
import java.util.List;
import java.util.Map;
import java.util.Set;
import java.util.concurrent.Executor;
import java.util.function.BooleanSupplier;
import java.util.stream.Collectors;

import org.openstreetmap.josm.data.osm.DataSet;

/**
 * Keeps a data set of JOSM and a room the same. A tick makes a group of what the mapper did ({@link GroupMaker}), and
 * then applies what the room changed ({@link Settler}). Both are on JOSM's event thread: nothing comes between them.
 */
final class LiveSession implements RoomConnection.Listener, RoomCommand.Session {
    /** Hears what a mapper should see. */
    interface Watcher {
        /** The map was entered. */
        void entered();

        /** Something was refused, or went wrong. */
        void warn(String text);

        /** The state or the list of changes is another one. */
        void changed();

        /** The room was left, or could not be joined. `why` is null if the mapper left it. */
        void ended(String why);
    }

    /** A refusal that names an entry whose news have not come yet. */
    private static final class Refusal {
        final String what;
        final Map<?, ?> no;

        Refusal(String what, Map<?, ?> no) {
            this.what = what;
            this.no = no;
        }
    }

    // The parts, which share this class as the place where they find each other.
    final Watcher watcher;
    final RoomConnection connection;
    final Primitives primitives;
    final Overlay overlay;
    final DirtyElements dirty;
    final Ticks ticks;
    final CommandList commands;
    final RoomLists lists = new RoomLists();
    final History history;
    final Jobs jobs;

    private final String author;
    private final GroupMaker maker;
    private final Settler settler;
    /** The entries of this session whose news have not come yet. */
    private final Set<Long> expected = new HashSet<>();
    private final List<Refusal> late = new ArrayList<>();
    /** How many runs of the server came before this one, as far as it is known. */
    private int run;
    private boolean isEntered;
    private boolean isClosed;

    /**
     * Makes a session that is not open yet.
     * @param data the empty data set
     * @param address the server's address, perhaps with a name and a password for HTTP Basic
     * @param author the mapper's name in the room
     * @param isBusy returns whether the mapper is in a gesture
     * @param loop runs something on JOSM's event thread, later
     */
    LiveSession(DataSet data, String address, String room, String author, BooleanSupplier isBusy, Executor loop,
            Watcher watcher) {
        this.author = author;
        this.watcher = watcher;
        connection = new RoomConnection(address, room, author, loop, this);
        primitives = new Primitives(data);
        overlay = new Overlay(() -> connection.core().elements());
        ticks = new Ticks(isBusy, loop, this::tick);
        dirty = new DirtyElements(data, ticks::soon);
        commands = new CommandList(data, this, ticks::soon);
        history = new History(name -> connection.core().get(name), primitives);
        jobs = new Jobs(this);
        maker = new GroupMaker(this);
        settler = new Settler(data, primitives, overlay);
    }

    /** Joins the room. */
    void open() {
        connection.open();
    }

    /** Leaves the room. */
    void close() {
        if (isClosed) return;
        isClosed = true;
        ticks.close();
        if (isEntered) {
            dirty.close();
            commands.close();
        }
        connection.close();
    }

    // ---- What others ask.

    RoomConnection.State state() {
        return connection.state();
    }

    /** Returns whether a message goes out at once. */
    boolean isHere() {
        return !isClosed && connection.core().isHere();
    }

    /** Returns a number that changes when another run of the server may answer, which has other entries. */
    int run() {
        return run;
    }

    /** Returns how many of the mapper's changes are not in the room yet. */
    int pending() {
        return jobs.count();
    }

    /** Returns whether nothing is under way. The data set shows the mirror then, and JOSM's lists are the room's. */
    boolean isAtRest() {
        return jobs.isIdle() && lists.isKnown() && overlay.isAtRest() && dirty.isEmpty() && !ticks.isComing();
    }

    String author() {
        return author;
    }

    /** Returns the number of the mirror's last entry. */
    long seq() {
        return connection.core().seq();
    }

    /** Returns the elements of the mirror. */
    Collection<Row> mirror() {
        return connection.core().elements().values();
    }

    // ---- What the mapper does.

    @Override
    public boolean isCleaning() {
        return commands != null && commands.isCleaning();
    }

    @Override
    public void undo(RoomCommand command) {
        if (commands.isRestoring() || isClosed || command.isDropped) return;
        Group group = command.group;
        if (group != null && !isHere() && jobs.withdraw(group)) { // it never left, so the room need not know
            overlay.forget(List.of(group));
        } else {
            jobs.add(Jobs.Work.UNDO, command, null);
        }
        ticks.soon();
        jobs.next();
        watcher.changed();
    }

    @Override
    public void redo(RoomCommand command) {
        if (commands.isRestoring() || isClosed || command.isDropped) return;
        if (command.group != null && !overlay.isWaiting(command.group)) again(command.group);
        else jobs.add(Jobs.Work.REDO, command, null);
        ticks.soon();
        jobs.next();
        watcher.changed();
    }

    /** Undoes an entry that need not be the last. JOSM's list follows when the room has answered. */
    void undoEntry(long entry) {
        jobs.add(Jobs.Work.UNDO, commands.of(entry), null);
        jobs.next();
        watcher.changed();
    }

    /** Does a group again that was undone before it left. */
    private void again(Group group) {
        for (Change each : group.changes.values()) {
            Row now = overlay.get(each.name);
            if (each.isCreate() ? now != null : now == null || each.clashesWith(each.before, now)) {
                warn(group.command.getDescriptionText(), Map.of("why", "clash", "el", each.name.toString(), "with",
                        history.lastOf(each.name, seq())));
                commands.drop(group.command);
                return;
            }
        }
        group.changes.keySet().forEach(overlay::unsettle);
        overlay.add(group);
        jobs.add(Jobs.Work.GROUP, group.command, group);
    }

    /** Reports that the room refused something, as soon as it is known who made the entry that the refusal names. */
    void warn(String what, Map<?, ?> no) {
        if (no.get("with") instanceof Long && (Long) no.get("with") > seq()) late.add(new Refusal(what, no));
        else watcher.warn(history.refused(what, no));
    }

    /** Reports the refusals whose entries are known by now. */
    private void warnLate(boolean isAll) {
        List<Refusal> known = late.stream().filter(each -> isAll || (Long) each.no.get("with") <= seq())
                .collect(Collectors.toList());
        late.removeAll(known);
        known.forEach(each -> watcher.warn(history.refused(each.what, each.no)));
    }

    /** A gesture is over. */
    void wake() {
        ticks.wake();
    }

    private void tick() {
        if (!isEntered || isClosed) return;
        RoomCommand[] made = {null};
        dirty.withoutHearing(() -> {
            made[0] = maker.commit();
            settler.settle();
            settler.markWaiting(pending() > 0 && overlay.groups().isEmpty());
        });
        commands.replace(made[0]);
        jobs.next();
        if (jobs.isIdle() && isHere() && lists.isKnown() && overlay.groups().isEmpty()) commands.show(lists);
        watcher.changed();
    }

    // ---- What the room does.

    @Override
    public void prepare(Map<Name, Row> map) {
        Primitives.pickIds();
        settler.fill(map);
    }

    @Override
    public void entered() {
        isEntered = true;
        dirty.open();
        commands.open();
        connection.ask(Messages.check(), entry -> { }, this::checkVersion);
        jobs.next();
        watcher.entered();
    }

    /** Leaves a room that would accept a change over what its mapper had not seen. */
    private void checkVersion(Answer answer) {
        boolean isOlder = "unknown_do".equals(answer.why())
                || "bad_field".equals(answer.why()) && !"since".equals(answer.no.get("field"));
        if (isOlder) connection.giveUp("the server is older than version 2.0.0");
    }

    /** Notes that an entry is of this session. Its news come later. */
    void expect(long entry) {
        if (entry > seq()) expected.add(entry);
    }

    @Override
    public void changed(long seq, String by, List<Difference> rows) {
        history.add(seq, by, rows);
        boolean isOwn = expected.remove(seq);
        if (!isOwn && by.equals(author)) lists.forget(); // another program of the mapper's made it
        List<Group> groups = overlay.groups();
        for (Difference row : rows) overlay.unsettle(row.name, row.before);
        // Later groups build on this session's own group. The room compared a group that it accepted.
        if (groups.stream().noneMatch(each -> each.entry == seq)) {
            groups.stream().filter(each -> each.entry == 0)
                    .forEach(each -> rows.forEach(row -> each.compare(row, seq)));
        }
        warnLate(false);
        ticks.soon();
        watcher.changed();
    }

    @Override
    public void reset(long seq, Boolean restarted, List<Difference> rows) {
        expected.clear();
        warnLate(true);
        for (Difference row : rows) {
            overlay.unsettle(row.name, row.before);
            for (Group group : overlay.groups()) group.compareAfterGap(row, seq);
        }
        if (restarted == null || restarted) {
            run++;
            history.forget();
            jobs.dropUndosAndRedos();
            commands.dropEntries();
            if (restarted != null) {
                watcher.warn("The server was started anew. Earlier changes cannot be undone any more.");
            }
        }
        lists.forget();
        ticks.soon();
    }

    @Override
    public void stateChanged() {
        jobs.next();
        ticks.soon();
        watcher.changed();
    }

    @Override
    public void ended(String why) {
        watcher.ended(why);
    }
}
