// License: GPL v2 or later. For details, see the file LICENSE.
package org.openstreetmap.josm.plugins.maproom;

import java.util.ArrayList;
import java.util.Collection;
import java.util.LinkedHashMap;
import java.util.List;
import java.util.Map;
import java.util.Set;
import java.util.TreeSet;
import java.util.function.Supplier;

/**
 * The mirror with the waiting groups done on it, which the data set has to show. It also knows what the data set shows
 * of the elements that may differ from that: the *unsettled* elements.
 */
final class Overlay {
    private final Supplier<Map<Name, Row>> mirror;
    /** The groups that the mirror does not have yet, in their order. */
    private final List<Group> waiting = new ArrayList<>();
    /** What the data set shows of the unsettled elements; null if nothing. */
    private final Map<Name, Row> unsettled = new LinkedHashMap<>();

    /** Makes an overlay without groups over what `mirror` returns. */
    Overlay(Supplier<Map<Name, Row>> mirror) {
        this.mirror = mirror;
    }

    /** Returns an element as the room has it, with the waiting groups done on it; null if it is not there. */
    Row get(Name name) {
        return done(name, mirror.get().get(name));
    }

    /** Returns an element with the waiting groups done on it, for what the room has of it. */
    private Row done(Name name, Row inRoom) {
        Row row = inRoom;
        for (Group each : waiting) {
            Change change = each.changes.get(name);
            if (change != null) row = change.applyTo(row);
        }
        return row;
    }

    /** Returns what the data set shows of an element, without the dirty changes of the mapper. */
    Row shown(Name name) {
        return unsettled.containsKey(name) ? unsettled.get(name) : get(name);
    }

    /** Returns the waiting groups in their order. */
    List<Group> groups() {
        return List.copyOf(waiting);
    }

    /** Returns whether a waiting group changes an element. */
    boolean isChanging(Name name) {
        return waiting.stream().anyMatch(each -> each.changes.containsKey(name));
    }

    boolean isWaiting(Group group) {
        return waiting.contains(group);
    }

    /** Adds a group that the data set shows already, or that is unsettled. */
    void add(Group group) {
        waiting.add(group);
    }

    /** Takes groups away, because the mirror has them or never will. */
    void forget(Collection<Group> groups) {
        for (Group group : groups) group.changes.keySet().forEach(this::unsettle);
        waiting.removeAll(groups);
    }

    // ---- The elements that may differ.

    /** Returns the names of the unsettled elements, in their order. */
    Set<Name> unsettled() {
        return new TreeSet<>(unsettled.keySet());
    }

    boolean isUnsettled(Name name) {
        return unsettled.containsKey(name);
    }

    /** Returns whether the data set shows exactly the mirror. */
    boolean isAtRest() {
        return waiting.isEmpty() && unsettled.isEmpty();
    }

    /** Notes that an element may differ soon. Call this before the groups change. */
    void unsettle(Name name) {
        if (!unsettled.containsKey(name)) unsettled.put(name, get(name));
    }

    /** Notes that the mirror has changed. `before` is what it had of the element. */
    void unsettle(Name name, Row before) {
        if (!unsettled.containsKey(name)) unsettled.put(name, done(name, before));
    }

    /** Notes that the data set shows something of an element. */
    void shows(Name name, Row row) {
        unsettled.put(name, row);
    }

    /** Notes that the data set shows what it has to show of an element. */
    void settle(Name name) {
        unsettled.remove(name);
    }

    /** Gives a new element of the waiting groups another name, because somebody else was quicker. */
    void rename(Name taken, Name free) {
        // What was shown of the elements that refer to it is the same element under its new name.
        unsettled.replaceAll((name, row) -> Group.renamed(row, taken, free));
        for (Row each : mirror.get().values()) {
            if (each.refersTo(taken) && !unsettled.containsKey(each.name)) {
                unsettled.put(each.name, Group.renamed(get(each.name), taken, free));
            }
        }
        for (Group each : waiting) each.rename(taken, free);
        unsettled.put(taken, null);
        unsettle(free);
    }
}
