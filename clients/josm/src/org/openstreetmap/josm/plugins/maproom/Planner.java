// License: GPL v2 or later. For details, see the file LICENSE.
package org.openstreetmap.josm.plugins.maproom;

import java.util.ArrayList;
import java.util.Collection;
import java.util.Collections;
import java.util.HashSet;
import java.util.LinkedHashMap;
import java.util.List;
import java.util.Map;
import java.util.Set;
import java.util.TreeMap;

/** Puts changes into an order in which the room accepts them, as the actions of one group. */
final class Planner {
    /** How many actions a group holds at most. */
    static final int MOST_ACTIONS = 10_000;

    private final Map<Name, Change> changes = new TreeMap<>();
    private final List<Map<String, Object>> actions = new ArrayList<>();
    private final List<Map<String, Object>> later = new ArrayList<>();
    private final Set<Name> made = new HashSet<>();

    private Planner(Collection<Change> given) {
        given.forEach(each -> changes.put(each.name, each));
    }

    /** Returns the actions: new elements first, then changes, then deletes. */
    static List<Map<String, Object>> actions(Collection<Change> changes) {
        Planner planner = new Planner(changes);
        planner.create();
        planner.change();
        planner.delete();
        return planner.actions;
    }

    private static Map<String, Object> action(String word, Name name) {
        Map<String, Object> action = new LinkedHashMap<>();
        action.put("do", word);
        action.put("el", name.toString());
        return action;
    }

    /** Nodes come first, then ways, then relations, each after the new relations that it has as members. */
    private void create() {
        changes.values().stream().filter(Change::isCreate).forEach(each -> create(each, new HashSet<>()));
        actions.addAll(later);
    }

    private void create(Change change, Set<Name> above) {
        if (made.contains(change.name)) return;
        above.add(change.name);
        Row row = change.after;
        if (row.members != null) {
            for (Name member : row.members) {
                Change other = changes.get(member);
                if (other != null && other.isCreate() && !above.contains(member)) create(other, above);
            }
            boolean isWhole = row.members.stream().allMatch(member -> isThere(member, row.name));
            if (!isWhole) { // two new relations have each other as members
                Map<String, Object> action = action("members", row.name);
                action.put("members", row.pairs());
                later.add(action);
                List<Name> members = new ArrayList<>();
                List<String> roles = new ArrayList<>();
                for (int i = 0; i < row.members.size(); i++) {
                    if (isThere(row.members.get(i), row.name)) {
                        members.add(row.members.get(i));
                        roles.add(row.roles.get(i));
                    }
                }
                add(Row.relation(row.name, row.tags, members, roles));
                return;
            }
        }
        add(row);
    }

    private boolean isThere(Name member, Name itself) {
        Change change = changes.get(member);
        return member.equals(itself) || change == null || !change.isCreate() || made.contains(member);
    }

    private void add(Row row) {
        Map<String, Object> action = new LinkedHashMap<>();
        action.put("do", "create");
        action.putAll(row.fields());
        actions.add(action);
        made.add(row.name);
    }

    private void change() {
        Map<List<Long>, List<Object>> moves = new LinkedHashMap<>();
        for (Change each : changes.values()) {
            if (each.before == null || each.after == null) continue;
            if (!each.tags.isEmpty()) {
                Map<String, Object> action = action("retag", each.name);
                action.put("tags", each.tags);
                actions.add(action);
            }
            if (!each.hasNewRest) continue;
            if (each.name.kind == 'n') {
                List<Long> by = List.of(each.after.lat - each.before.lat, each.after.lon - each.before.lon);
                moves.computeIfAbsent(by, key -> new ArrayList<>()).add(each.name.toString());
            } else {
                boolean isWay = each.name.kind == 'w';
                Map<String, Object> action = action(isWay ? "nodes" : "members", each.name);
                action.put(isWay ? "nodes" : "members", isWay ? each.after.nodeList() : each.after.pairs());
                actions.add(action);
            }
        }
        moves.forEach((by, names) -> {
            Map<String, Object> action = new LinkedHashMap<>();
            action.put("do", "move");
            action.put("els", names);
            action.put("dlat", by.get(0));
            action.put("dlon", by.get(1));
            actions.add(action);
        });
    }

    /** Relations go first, then ways, then nodes. A relation with a deleted relation as member is emptied first. */
    private void delete() {
        List<Change> deletes = new ArrayList<>();
        changes.values().stream().filter(Change::isDelete).forEach(deletes::add);
        Collections.reverse(deletes);
        for (Change each : deletes) {
            if (each.before.members == null) continue;
            boolean isNested = each.before.members.stream().anyMatch(member -> member.kind == 'r'
                    && changes.containsKey(member) && changes.get(member).isDelete());
            if (isNested) {
                Map<String, Object> action = action("members", each.name);
                action.put("members", List.of());
                actions.add(action);
            }
        }
        deletes.forEach(each -> actions.add(action("delete", each.name)));
    }
}
