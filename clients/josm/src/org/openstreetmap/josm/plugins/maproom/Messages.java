// License: GPL v2 or later. For details, see the file LICENSE.
package org.openstreetmap.josm.plugins.maproom;

import java.util.LinkedHashMap;
import java.util.List;
import java.util.Map;

/** The messages that the plugin sends, without their ids. A field that each of them gets has its place here alone. */
final class Messages {
    private Messages() {
        // only functions
    }

    /** Returns the message that does the changes of a group as one entry, unless others changed the same since. */
    static Map<String, Object> ofGroup(Group group) {
        Map<String, Object> message = message("group");
        message.put("since", group.since);
        message.put("actions", Planner.actions(group.changes.values()));
        return message;
    }

    /** Returns a group that each room refuses: as `bad_field` of `since`, unless it does not read that field. */
    static Map<String, Object> check() {
        Map<String, Object> message = message("group");
        message.put("since", -1L);
        message.put("actions", List.of());
        return message;
    }

    /** Returns the message that undoes an entry of the mapper. */
    static Map<String, Object> undo(long entry) {
        Map<String, Object> message = message("undo");
        message.put("seq", entry);
        return message;
    }

    /** Returns the message that does again what the mapper undid last. */
    static Map<String, Object> redo() {
        return message("redo");
    }

    /** Returns the question for the entries that the mapper can undo and redo. */
    static Map<String, Object> undos() {
        return message("undos");
    }

    /** Returns a small question, whose answer does not matter. */
    static Map<String, Object> probe() {
        Map<String, Object> message = message("get");
        message.put("el", "n1");
        return message;
    }

    private static Map<String, Object> message(String word) {
        Map<String, Object> message = new LinkedHashMap<>();
        message.put("do", word);
        return message;
    }
}
