// License: GPL v2 or later. For details, see the file LICENSE.
package org.openstreetmap.josm.plugins.maproom;

import java.util.ArrayList;
import java.util.Collections;
import java.util.List;
import java.util.Map;

/**
 * What the mapper can undo and redo in the room. The room returns it once, and each answer changes it as in the room.
 * So JOSM's lists of commands can be compared with it whenever nothing is under way.
 */
final class RoomLists {
    /** The mapper's active entries, rising. */
    private final List<Long> undos = new ArrayList<>();
    /** The entries that the mapper can redo, the next last. */
    private final List<Long> redos = new ArrayList<>();
    private boolean isKnown;

    /** Takes the room's answer to `undos`. */
    void take(Map<?, ?> ok) {
        forget();
        for (Object each : (List<?>) ok.get("undos")) undos.add((Long) each);
        for (Object each : (List<?>) ok.get("redo")) redos.add((Long) each);
        isKnown = true;
    }

    /** Makes the lists unknown. The room has to be asked again. */
    void forget() {
        undos.clear();
        redos.clear();
        isKnown = false;
    }

    boolean isKnown() {
        return isKnown;
    }

    /** Takes that the room accepted a group as an entry. */
    void accepted(long entry) {
        undos.add(entry);
        redos.clear();
    }

    /** Takes that the room accepted an undo of an entry. */
    void undone(long entry) {
        if (!undos.remove((Long) entry)) forget();
        else redos.add(entry);
    }

    /** Takes that the room accepted a redo of an entry as another entry. */
    void redone(long redid, long entry) {
        if (redid != nextRedo()) {
            forget();
            return;
        }
        redos.remove(redos.size() - 1);
        undos.add(entry);
    }

    /** Returns the entry that a redo does again, or 0 if there is none or it is not known. */
    long nextRedo() {
        return redos.isEmpty() ? 0 : redos.get(redos.size() - 1);
    }

    boolean canUndo(long entry) {
        return Collections.binarySearch(undos, entry) >= 0;
    }

    /** Returns the last active entries, at most `most`, in the order of JOSM's list. */
    List<Long> lastUndos(int most) {
        return List.copyOf(undos.subList(Math.max(0, undos.size() - most), undos.size()));
    }

    /** Returns the next redos, at most `most`, in the order of JOSM's list: the next first. */
    List<Long> nextRedos(int most) {
        List<Long> next = new ArrayList<>(redos.subList(Math.max(0, redos.size() - most), redos.size()));
        Collections.reverse(next);
        return next;
    }
}
