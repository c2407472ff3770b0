// License: GPL v2 or later. For details, see the file LICENSE.
package org.openstreetmap.josm.plugins.maproom;

import java.util.Collection;

import javax.swing.Icon;

import org.openstreetmap.josm.command.Command;
import org.openstreetmap.josm.data.osm.DataSet;
import org.openstreetmap.josm.data.osm.OsmPrimitive;

/**
 * An entry of the room in JOSM's list of commands, in the place of the commands that it came from. JOSM's undo and
 * redo call it, and it asks the room.
 */
final class RoomCommand extends Command {
    /** What a command needs of its session. */
    interface Session {
        /** JOSM undoes a command, which is in JOSM's list of redos by now. */
        void undo(RoomCommand command);

        /** JOSM redoes a command, which is in JOSM's list of undos by now. */
        void redo(RoomCommand command);

        /** Returns whether JOSM's own commands leave the lists just now. */
        boolean isCleaning();
    }

    /** The number of the active entry, or that of the entry that was undone; 0 while the room has not answered. */
    long entry;
    /** Whether it has to leave JOSM's list. */
    boolean isDropped;
    /** The group, as long as the room has not accepted it. */
    Group group;

    private final Session session;
    private final String label;
    private final Icon icon;
    private final Collection<? extends OsmPrimitive> primitives;

    /**
     * Makes the command of a group without an entry.
     * @param label what the mapper did, in words
     * @param icon the icon of what the mapper did, or null
     * @param primitives what the group changes
     */
    RoomCommand(Session session, DataSet data, String label, Icon icon,
            Collection<? extends OsmPrimitive> primitives) {
        super(data);
        this.session = session;
        this.label = label;
        this.icon = icon;
        this.primitives = primitives;
    }

    /**
     * Returns the data set. While JOSM's own commands leave the list, it returns null, because JOSM drops all commands
     * of a data set together.
     */
    @Override
    public DataSet getAffectedDataSet() {
        return session != null && session.isCleaning() && !isDropped ? null : super.getAffectedDataSet();
    }

    @Override
    public boolean executeCommand() {
        session.redo(this);
        return true;
    }

    @Override
    public void undoCommand() {
        session.undo(this);
    }

    @Override
    public void fillModifiedData(Collection<OsmPrimitive> modified, Collection<OsmPrimitive> deleted,
            Collection<OsmPrimitive> added) {
        modified.addAll(primitives);
    }

    @Override
    public Collection<? extends OsmPrimitive> getParticipatingPrimitives() {
        return primitives;
    }

    @Override
    public String getDescriptionText() {
        return label;
    }

    @Override
    public Icon getDescriptionIcon() {
        return icon;
    }

    // Two commands are the same only if they are one object: the list may hold two entries with equal words.

    @Override
    public boolean equals(Object other) {
        return this == other;
    }

    @Override
    public int hashCode() {
        return System.identityHashCode(this);
    }
}
