// License: GPL v2 or later. For details, see the file LICENSE.
package org.openstreetmap.josm.plugins.maproom;

import java.util.ArrayDeque;
import java.util.Deque;
import java.util.List;
import java.util.Map;

import javax.swing.Timer;

/**
 * What has to be asked of the room. One job is under way at a time, so each builds on the answer to the one before.
 * The lists of undos and redos follow each answer.
 */
final class Jobs {
    /** After how many milliseconds a job that the server had no memory for is tried again. */
    private static final int MEMORY_PAUSE = 1000;

    enum Work { GROUP, UNDO, REDO, LISTS }

    /** Something to ask of the room. */
    static final class Job {
        final Work work;
        final RoomCommand command;
        /** The group of a GROUP. */
        final Group group;
        /** The run of the server that got the message. */
        private int run;

        Job(Work work, RoomCommand command, Group group) {
            this.work = work;
            this.command = command;
            this.group = group;
        }

        private boolean isUndoOrRedo() {
            return work == Work.UNDO || work == Work.REDO;
        }
    }

    private final LiveSession session;
    private final GroupAnswers groups;
    private final Deque<Job> queue = new ArrayDeque<>();
    private Job current;

    Jobs(LiveSession session) {
        this.session = session;
        groups = new GroupAnswers(session);
    }

    /** Adds a job after the others. {@link #next} begins it. */
    void add(Work work, RoomCommand command, Group group) {
        queue.add(new Job(work, command, group));
    }

    /** Adds a job in front of the others. */
    void addFirst(Work work, RoomCommand command, Group group) {
        queue.addFirst(new Job(work, command, group));
    }

    /** Takes the job of a group away, if it has not begun. Returns whether it had not. */
    boolean withdraw(Group group) {
        return queue.removeIf(each -> each.group == group);
    }

    /** Takes all undos and redos away that have not begun. */
    void dropUndosAndRedos() {
        queue.removeIf(Job::isUndoOrRedo);
    }

    /** Returns whether nothing is under way and nothing waits. */
    boolean isIdle() {
        return queue.isEmpty() && current == null;
    }

    /** Returns how many of the mapper's changes the room has not answered. */
    int count() {
        long waiting = queue.stream().filter(each -> each.work != Work.LISTS).count();
        return (int) waiting + (current == null || current.work == Work.LISTS ? 0 : 1);
    }

    /** Begins the next job, if none is under way and the room can be reached. */
    void next() {
        while (current == null && session.isHere()) {
            Job job = queue.poll();
            if (job == null) {
                if (session.lists.isKnown()) return;
                job = new Job(Work.LISTS, null, null);
            }
            if (job.work == Work.GROUP && job.group.clash != null) {
                groups.refuse(job.group, job.group.clash);
            } else if (isPossible(job)) {
                current = job;
                begin(job);
            }
        }
    }

    /** Returns whether a job is still what the mapper wants, after the answers to those before it. */
    private boolean isPossible(Job job) {
        if (job.work == Work.GROUP || job.work == Work.LISTS) return true;
        if (job.command.entry == 0 || job.command.isDropped) return false;
        // The room redoes what was undone last, so this has to be what JOSM shows as the next redo.
        if (job.work != Work.REDO || !session.lists.isKnown()) return true;
        return session.lists.nextRedo() == job.command.entry;
    }

    private void begin(Job job) {
        job.run = session.run();
        switch (job.work) {
        case GROUP:
            job.group.isSent = true;
            job.group.since = session.seq();
            session.connection.ask(Messages.ofGroup(job.group), entry -> {
                job.group.entry = entry;
                session.expect(entry);
            }, answer -> end(job, answer));
            break;
        case REDO:
            session.connection.ask(Messages.redo(), session::expect, answer -> end(job, answer));
            break;
        case LISTS:
            session.connection.ask(Messages.undos(), entry -> { }, answer -> end(job, answer));
            break;
        default:
            session.connection.ask(Messages.undo(job.command.entry), session::expect, answer -> end(job, answer));
        }
    }

    private void end(Job job, Answer answer) {
        if ("memory".equals(answer.why())) {
            Timer timer = new Timer(MEMORY_PAUSE, event -> {
                if (current != job) return;
                current = null;
                queue.addFirst(job); // others may have changed the same by now
                next();
            });
            timer.setRepeats(false);
            timer.start();
            return;
        }
        current = null;
        try {
            if (answer.ok != null && job.run != session.run()) endEarlier(job);
            else end(job.work, job, answer);
        } finally {
            session.ticks.soon();
            next();
            session.watcher.changed();
        }
    }

    private void end(Work work, Job job, Answer answer) {
        switch (work) {
        case GROUP: groups.end(job, answer); break;
        case UNDO: endUndo(job, answer); break;
        case REDO: endRedo(job, answer); break;
        default: session.lists.take(answer.ok != null ? answer.ok : Map.of("undos", List.of(), "redo", List.of()));
        }
    }

    /** Takes that an earlier run of the server accepted a job. The mirror has it or not; nobody can undo it. */
    private void endEarlier(Job job) {
        if (job.work == Work.GROUP) groups.forget(job.group);
        session.lists.forget();
    }

    private void endUndo(Job job, Answer answer) {
        if (answer.ok != null) session.lists.undone(job.command.entry);
        else refused("Undo", job, answer);
    }

    private void endRedo(Job job, Answer answer) {
        if (answer.ok == null) {
            refused("Redo", job, answer);
            return;
        }
        // The answer to a message that was sent again does not name the entry that the redo did again.
        Object named = answer.ok.get("redid");
        long redid = named instanceof Long ? (Long) named : job.command.entry;
        session.commands.accepted(session.commands.of(redid), answer.seq());
        session.lists.redone(redid, answer.seq());
    }

    private void refused(String what, Job job, Answer answer) {
        session.warn(what + " of: " + job.command.getDescriptionText(), answer.no);
        dropUndosAndRedos();
        session.lists.forget();
    }
}
