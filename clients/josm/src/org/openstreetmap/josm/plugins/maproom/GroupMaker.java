// License: GPL v2 or later. For details, see the file LICENSE.
package org.openstreetmap.josm.plugins.maproom;

import java.util.LinkedHashSet;
import java.util.List;
import java.util.Map;
import java.util.Set;
import java.util.stream.Collectors;

import org.openstreetmap.josm.data.osm.OsmPrimitive;

/** Makes groups of what the mapper did: it compares the dirty elements with what the data set showed of them. */
final class GroupMaker {
    private final LiveSession session;
    private final Primitives primitives;
    private final Overlay overlay;

    GroupMaker(LiveSession session) {
        this.session = session;
        primitives = session.primitives;
        overlay = session.overlay;
    }

    /**
     * Makes a group of the dirty elements, and adds it to the overlay. If a room cannot hold what the mapper did, it
     * warns, and the elements are unsettled.
     * @return the command of the group, or null if there is no group
     */
    RoomCommand commit() {
        Set<Name> changed = new LinkedHashSet<>();
        for (Name each : session.dirty.take(primitives.all())) {
            Name name = primitives.bind(each, taken -> overlay.get(taken) != null);
            if (name != null) changed.add(name);
        }
        Group group = new Group();
        Map<String, Object> fault = null;
        for (Name name : changed) {
            try {
                Map<String, Object> late = add(name, group);
                if (fault == null) fault = late;
            } catch (Unfit unfit) {
                fault = unfit.no;
                overlay.shows(name, overlay.shown(name));
            }
        }
        if (fault == null) fault = tooLarge(group);
        // From here on, the data set shows something else than the overlay.
        group.changes.forEach((name, change) -> overlay.shows(name, change.after));
        if (fault != null) {
            session.warn(session.commands.label(), fault);
            return null;
        }
        if (group.changes.isEmpty()) return null;
        List<OsmPrimitive> participants = group.changes.keySet().stream().map(primitives::get)
                .collect(Collectors.toList());
        RoomCommand command = session.commands.make(participants);
        command.group = group;
        group.command = command;
        overlay.add(group);
        session.jobs.add(Jobs.Work.GROUP, command, group);
        return command;
    }

    /** Adds what the mapper did to an element. Returns the fault of it, or null. */
    private Map<String, Object> add(Name name, Group group) throws Unfit {
        Row base = overlay.shown(name);
        Change change = new Change(name, base, primitives.stateOf(name, overlay.get(name) != null));
        if (!change.isEmpty()) {
            group.changes.put(name, change);
            return overtaken(change);
        }
        // It is the same to the room, but JOSM may hold more decimals, or a mark that it was modified.
        overlay.shows(name, base);
        return null;
    }

    /** Returns the fault that somebody else changed the same part of an element while the mapper was in a gesture. */
    private Map<String, Object> overtaken(Change change) {
        if (!overlay.isUnsettled(change.name)) return null;
        String element = change.name.toString();
        Row now = overlay.get(change.name);
        if (change.before != null && now == null && change.after != null) {
            return Map.of("why", "absent", "el", element);
        }
        if (!change.clashesWith(change.before, now)) return null;
        return Map.of("why", "clash", "el", element, "with", session.history.lastOf(change.name, session.seq()));
    }

    private static Map<String, Object> tooLarge(Group group) {
        if (group.changes.size() <= Planner.MOST_ACTIONS / 2) return null; // an element takes two actions at most
        int count = Planner.actions(group.changes.values()).size();
        return count > Planner.MOST_ACTIONS ? Map.of("why", "too_large", "count", count) : null;
    }
}
