// License: GPL v2 or later. For details, see the file LICENSE.
package org.openstreetmap.josm.plugins.maproom;

import static org.openstreetmap.josm.tools.I18n.tr;

import java.util.ArrayList;
import java.util.Collection;
import java.util.HashMap;
import java.util.List;
import java.util.Map;
import java.util.stream.Collectors;
import java.util.stream.Stream;

import javax.swing.Icon;

import org.openstreetmap.josm.command.Command;
import org.openstreetmap.josm.data.UndoRedoHandler;
import org.openstreetmap.josm.data.UndoRedoHandler.CommandAddedEvent;
import org.openstreetmap.josm.data.UndoRedoHandler.CommandQueueCleanedEvent;
import org.openstreetmap.josm.data.UndoRedoHandler.CommandQueuePreciseListener;
import org.openstreetmap.josm.data.UndoRedoHandler.CommandRedoneEvent;
import org.openstreetmap.josm.data.UndoRedoHandler.CommandUndoneEvent;
import org.openstreetmap.josm.data.osm.DataSet;
import org.openstreetmap.josm.data.osm.OsmPrimitive;
import org.openstreetmap.josm.spi.preferences.Config;

/**
 * JOSM's lists of commands, as far as they are of one data set. JOSM's own commands are in them until the next tick,
 * and then the entries of the room alone.
 */
final class CommandList implements CommandQueuePreciseListener {
    /** How many of the mapper's entries JOSM's lists have at least. */
    private static final int LEAST_COMMANDS = 500;

    private final DataSet data;
    private final RoomCommand.Session session;
    private final Runnable changed;
    private final UndoRedoHandler handler = UndoRedoHandler.getInstance();
    /** The command of each entry that has, or had, a place in the lists. */
    private final Map<Long, RoomCommand> byEntry = new HashMap<>();
    private final List<String> labels = new ArrayList<>();
    private Icon icon;
    private boolean isCleaning;
    private boolean isRestoring;
    private boolean isStale;

    /**
     * Makes an empty list, which does not listen yet.
     * @param session what the commands of the room ask
     * @param changed is called after JOSM's own commands were added, undone or redone
     */
    CommandList(DataSet data, RoomCommand.Session session, Runnable changed) {
        this.data = data;
        this.session = session;
        this.changed = changed;
    }

    /** Listens to JOSM's lists from now on. */
    void open() {
        handler.addCommandQueuePreciseListener(this);
    }

    /** Listens no more. */
    void close() {
        handler.removeCommandQueuePreciseListener(this);
    }

    boolean isCleaning() {
        return isCleaning;
    }

    /** Returns whether JOSM undoes and redoes only because its lists are made anew. */
    boolean isRestoring() {
        return isRestoring;
    }

    // ---- JOSM's own commands.

    private boolean isJosms(Command command) {
        return !(command instanceof RoomCommand) && command.getAffectedDataSet() == data;
    }

    @Override
    public void commandAdded(CommandAddedEvent event) {
        if (!isJosms(event.getCommand())) return;
        labels.add(labelOf(event.getCommand()));
        icon = event.getCommand().getDescriptionIcon();
        changed.run();
    }

    @Override
    public void commandUndone(CommandUndoneEvent event) {
        if (!isJosms(event.getCommand())) return;
        if (!labels.isEmpty()) labels.remove(labels.size() - 1);
        changed.run();
    }

    @Override
    public void commandRedone(CommandRedoneEvent event) {
        if (!isJosms(event.getCommand())) return;
        labels.add(labelOf(event.getCommand()));
        changed.run();
    }

    @Override
    public void cleaned(CommandQueueCleanedEvent event) {
        // nothing: either this class did it, or the layer is closed
    }

    private static String labelOf(Command command) {
        String sequence = tr("Sequence: {0}", "");
        String text = command.getDescriptionText();
        return text.startsWith(sequence) ? text.substring(sequence.length()) : text;
    }

    /** Returns what the mapper did since the last tick, in words. */
    String label() {
        return labels.isEmpty() ? "Change" : String.join("; ", labels);
    }

    /**
     * Makes the command of what the mapper did since the last tick.
     * @param primitives what it changes
     */
    RoomCommand make(Collection<? extends OsmPrimitive> primitives) {
        return new RoomCommand(session, data, label(), icon, primitives);
    }

    /**
     * Takes JOSM's own commands, and dropped ones, from JOSM's lists, and puts a command of the room in their place.
     * @param made the command, or null if the mapper changed nothing that a room has
     */
    void replace(RoomCommand made) {
        Stream<Command> all = Stream.concat(handler.getUndoCommands().stream(), handler.getRedoCommands().stream());
        if (isStale || all.anyMatch(this::isJosms)) clean();
        isStale = false;
        labels.clear();
        icon = null;
        if (made != null && !made.isDropped) handler.add(made, false);
    }

    private void clean() {
        isCleaning = true;
        try {
            handler.clean(data);
        } finally {
            isCleaning = false;
        }
    }

    // ---- The room's entries.

    /** Makes a command leave JOSM's lists at the next tick. */
    void drop(RoomCommand command) {
        command.isDropped = true;
        isStale = true;
    }

    /** Notes that a command is an entry. */
    void accepted(RoomCommand command, long entry) {
        command.entry = entry;
        byEntry.put(entry, command);
    }

    /** Returns the command of an entry, which may be of an earlier session. */
    RoomCommand of(long entry) {
        RoomCommand command = byEntry.get(entry);
        if (command == null) {
            command = new RoomCommand(session, data, "Entry " + entry + " of an earlier session", null, List.of());
            byEntry.put(entry, command);
        }
        command.entry = entry;
        return command;
    }

    /** Drops all commands of entries, because another run of the server does not know them. */
    void dropEntries() {
        byEntry.clear();
        Stream.concat(mine(handler.getUndoCommands()).stream(), mine(handler.getRedoCommands()).stream())
                .filter(each -> each.entry != 0).forEach(this::drop);
        isStale = true;
    }

    /** Makes JOSM's lists those of the room. Call this if no command of JOSM's own and no waiting group is in them. */
    void show(RoomLists lists) {
        List<RoomCommand> undos = mine(handler.getUndoCommands());
        List<RoomCommand> redos = mine(handler.getRedoCommands());
        // JOSM drops the oldest commands beyond a number, which all layers share.
        int least = Math.min(LEAST_COMMANDS, Config.getPref().getInt("undo.max", 1000) / 2);
        boolean isShown = undos.equals(commandsOf(lists.lastUndos(Math.max(least, undos.size()))))
                && redos.equals(commandsOf(lists.nextRedos(Math.max(least, redos.size()))));
        if (isShown) return;
        restore(commandsOf(lists.lastUndos(least)), commandsOf(lists.nextRedos(least)));
    }

    private void restore(List<RoomCommand> undos, List<RoomCommand> redos) {
        List<RoomCommand> all = new ArrayList<>(undos);
        all.addAll(redos); // the next first, because JOSM undoes them from the last on
        isRestoring = true;
        try {
            handler.clean(data);
            for (RoomCommand each : all) {
                each.isDropped = false;
                handler.addNoRedraw(each, false);
            }
            if (!all.isEmpty()) handler.afterAdd(all);
            if (!redos.isEmpty()) handler.undo(redos.size());
        } finally {
            isRestoring = false;
        }
    }

    private List<RoomCommand> commandsOf(List<Long> entries) {
        return entries.stream().map(this::of).collect(Collectors.toList());
    }

    private List<RoomCommand> mine(List<Command> given) {
        return given.stream().filter(each -> each instanceof RoomCommand && each.getAffectedDataSet() == data)
                .map(each -> (RoomCommand) each).collect(Collectors.toList());
    }
}
