// License: GPL v2 or later. For details, see the file LICENSE.
package org.openstreetmap.josm.plugins.maproom;

import java.util.ArrayList;
import java.util.LinkedHashMap;
import java.util.List;
import java.util.Map;
import java.util.Objects;
import java.util.Set;

/** What one command of the mapper changed, until the room has answered and the mirror has it. */
final class Group {
    final Map<Name, Change> changes = new LinkedHashMap<>();
    RoomCommand command;
    /** The number of its entry, or 0 as long as the room has not accepted it. */
    long entry;
    /** Whether it is on its way. */
    boolean isSent;
    /** The mirror's last entry when it was sent: up to there, it was compared with what others did. */
    long since;
    /** The refusal for a change of somebody else's to the same part of an element in the same moment, or null. */
    Map<String, Object> clash;

    /** Notes a change by somebody else. */
    void compare(Difference theirs, long seq) {
        Change mine = changes.get(theirs.name);
        if (clash == null && mine != null && mine.clashesWith(theirs.before, theirs.after)) {
            clash = Map.of("why", "clash", "el", theirs.name.toString(), "with", seq);
        }
    }

    /** Notes a difference after missed entries. It may be the group's own, if the group was on its way. */
    void compareAfterGap(Difference theirs, long seq) {
        Change mine = changes.get(theirs.name);
        if (mine == null || isSent && Objects.equals(mine.applyTo(theirs.before), theirs.after)) return;
        compare(theirs, seq);
    }

    /** Gives an element of the group another name. */
    void rename(Name from, Name to) {
        List<Change> all = new ArrayList<>(changes.values());
        changes.clear();
        for (Change each : all) {
            Change renamed = new Change(each.name.equals(from) ? to : each.name, renamed(each.before, from, to),
                    renamed(each.after, from, to));
            changes.put(renamed.name, renamed);
        }
    }

    /** Returns an element in which a name is another one; its own, too. */
    static Row renamed(Row row, Name from, Name to) {
        if (row == null) return null;
        Name name = row.name.equals(from) ? to : row.name;
        if (row.nodes != null && from.kind == 'n') {
            long[] nodes = row.nodes.clone();
            for (int i = 0; i < nodes.length; i++) {
                if (nodes[i] == from.id) nodes[i] = to.id;
            }
            return Row.way(name, row.tags, nodes);
        }
        if (row.members != null) {
            List<Name> members = new ArrayList<>(row.members);
            members.replaceAll(each -> each.equals(from) ? to : each);
            return Row.relation(name, row.tags, members, row.roles);
        }
        return row.named(name);
    }

    /**
     * Leaves out an action that changes nothing any more, because somebody else did the same.
     * @param position the position of the action in the message
     * @return whether the action is one that can be left out
     */
    boolean leaveOut(int position) {
        Map<String, Object> action = Planner.actions(changes.values()).get(position);
        Change change = action.containsKey("el") ? changes.get(Name.of((String) action.get("el"))) : null;
        if (change == null || change.before == null || change.after == null) return false;
        Row before = "retag".equals(action.get("do")) ? change.before.withTags(change.after.tags)
                : change.after.withTags(change.before.tags);
        Change rest = new Change(change.name, before, change.after);
        if (rest.isEmpty()) changes.remove(change.name);
        else changes.put(change.name, rest);
        return true;
    }

    /** Returns a refusal with the element that the refused action is about, if the room did not name one. */
    Map<?, ?> withElement(Map<?, ?> no) {
        if (!(no.get("action") instanceof Long) || no.containsKey("el")) return no;
        Map<String, Object> action = Planner.actions(changes.values()).get(((Long) no.get("action")).intValue());
        Map<Object, Object> whole = new LinkedHashMap<>(no);
        whole.put("el", action.containsKey("el") ? action.get("el") : ((List<?>) action.get("els")).get(0));
        return whole;
    }

    /** Returns whether this group changes some elements, or refers to them. */
    boolean buildsOn(Set<Name> names) {
        return changes.values().stream().anyMatch(each -> names.contains(each.name)
                || each.after != null && !each.after.allReferences(name -> !names.contains(name)));
    }
}
