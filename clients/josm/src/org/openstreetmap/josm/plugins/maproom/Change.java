// License: GPL v2 or later. For details, see the file LICENSE.
package org.openstreetmap.josm.plugins.maproom;

import java.util.Collections;
import java.util.LinkedHashMap;
import java.util.Map;
import java.util.Objects;
import java.util.TreeMap;

/** What a mapper did to one element: from the element that JOSM showed to what JOSM has now. */
final class Change {
    final Name name;
    /** What JOSM showed, or null for a new element. */
    final Row before;
    /** What the mapper made of it, or null if it is deleted. */
    final Row after;
    /** The tags that differ; null stands for a tag that goes. */
    final Map<String, String> tags;
    /** Whether the position or the list differs. */
    final boolean hasNewRest;

    Change(Name name, Row before, Row after) {
        this.name = name;
        this.before = before;
        this.after = after;
        tags = before == null || after == null ? Collections.emptyMap() : changedTags(before.tags, after.tags);
        hasNewRest = before != null && after != null && !before.hasSameRest(after);
    }

    private static Map<String, String> changedTags(Map<String, String> before, Map<String, String> after) {
        Map<String, String> tags = new LinkedHashMap<>();
        before.keySet().forEach(key -> {
            if (!after.containsKey(key)) tags.put(key, null);
        });
        after.forEach((key, value) -> {
            if (!value.equals(before.get(key))) tags.put(key, value);
        });
        return tags;
    }

    boolean isCreate() {
        return before == null && after != null;
    }

    boolean isDelete() {
        return before != null && after == null;
    }

    boolean isEmpty() {
        return before == null && after == null || before != null && after != null && tags.isEmpty() && !hasNewRest;
    }

    /** Does the change to an element as it is by now, as the room will. */
    Row applyTo(Row row) {
        if (before == null || after == null) return after;
        if (row == null) return null;
        Row changed = row;
        if (!tags.isEmpty()) {
            Map<String, String> merged = new TreeMap<>(row.tags);
            tags.forEach((key, value) -> {
                if (value == null) merged.remove(key);
                else merged.put(key, value);
            });
            changed = changed.withTags(merged);
        }
        if (!hasNewRest) return changed;
        if (name.kind == 'n') return changed.at(row.lat + after.lat - before.lat, row.lon + after.lon - before.lon);
        return after.withTags(changed.tags);
    }

    /** Whether somebody else changed the same part of the element, so that the room would overwrite one of both. */
    boolean clashesWith(Row theirBefore, Row theirAfter) {
        // The room itself refuses to create what is there, and to change what is gone.
        if (before == null || theirBefore == null || theirAfter == null) return false;
        if (theirBefore.equals(theirAfter)) return false;
        if (after == null) return true;
        // A move is a distance, so a node would go on from where somebody else moved it to.
        boolean isSame = name.kind != 'n' && theirAfter.hasSameRest(after);
        if (hasNewRest && !theirBefore.hasSameRest(theirAfter) && !isSame) return true;
        return tags.entrySet().stream().anyMatch(each -> {
            String theirs = theirAfter.tags.get(each.getKey());
            return !Objects.equals(theirs, theirBefore.tags.get(each.getKey()))
                    && !Objects.equals(theirs, each.getValue());
        });
    }
}
