// License: GPL v2 or later. For details, see the file LICENSE.
package org.openstreetmap.josm.plugins.maproom;

import java.util.HashSet;
import java.util.List;
import java.util.Map;
import java.util.Set;

/** What happens when the room has answered a group. */
final class GroupAnswers {
    private final LiveSession session;
    private final Overlay overlay;

    GroupAnswers(LiveSession session) {
        this.session = session;
        overlay = session.overlay;
    }

    /** Takes the answer to a group: the group is in the mirror, goes out again in another form, or is refused. */
    void end(Jobs.Job job, Answer answer) {
        Group group = job.group;
        if (answer.ok != null) {
            accept(group, answer.seq());
        } else if (!goesOutAgain(group, answer)) {
            boolean isDone = "nothing".equals(answer.why())
                    && (group.changes.isEmpty() || !answer.no.containsKey("action"));
            if (isDone) forget(group); // others did the same already
            else refuse(group, "changed".equals(answer.why()) && group.clash != null ? group.clash : answer.no);
            session.lists.forget();
        }
    }

    private void accept(Group group, long entry) {
        overlay.forget(List.of(group));
        group.command.group = null;
        session.commands.accepted(group.command, entry);
        session.lists.accepted(entry);
    }

    /** Takes a group away with its command. */
    void forget(Group group) {
        overlay.forget(List.of(group));
        drop(group);
    }

    /** Changes a group that the room refused, if it can be accepted in another form, and adds it again. */
    private boolean goesOutAgain(Group group, Answer answer) {
        if ("present".equals(answer.why())) {
            Name taken = Name.of((String) answer.no.get("el"));
            if (!group.changes.containsKey(taken) || !group.changes.get(taken).isCreate()) return false;
            Name free = session.primitives.rename(taken, name -> overlay.get(name) != null);
            overlay.rename(taken, free);
        } else if ("nothing".equals(answer.why()) && answer.no.get("action") instanceof Long) {
            group.changes.keySet().forEach(overlay::unsettle);
            if (!group.leaveOut(((Long) answer.no.get("action")).intValue()) || group.changes.isEmpty()) return false;
        } else if ("changed".equals(answer.why())) {
            // The mirror has that entry by now, and the group was compared with it, each tag by itself. To the room,
            // all tags of an element are one part.
            if (group.clash != null || answer.with() <= group.since) return false;
        } else {
            return false;
        }
        group.isSent = false;
        session.jobs.addFirst(Jobs.Work.GROUP, group.command, group);
        return true;
    }

    /** Rolls a group back, and with it the later groups that build on it. */
    void refuse(Group group, Map<?, ?> no) {
        session.warn(group.command.getDescriptionText(), group.withElement(no));
        Set<Name> names = new HashSet<>(group.changes.keySet());
        forget(group);
        dropLater(names);
        session.ticks.soon();
    }

    /** Rolls back the groups that build on some elements. */
    private void dropLater(Set<Name> names) {
        for (Group each : overlay.groups()) {
            if (each.isSent || !each.buildsOn(names)) continue;
            names.addAll(each.changes.keySet());
            forget(each);
            session.warn(each.command.getDescriptionText(), Map.of("why", "built_on"));
        }
    }

    private void drop(Group group) {
        session.jobs.withdraw(group);
        session.commands.drop(group.command);
    }
}
