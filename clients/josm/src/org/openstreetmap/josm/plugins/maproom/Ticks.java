// License: GPL v2 or later. For details, see the file LICENSE.
package org.openstreetmap.josm.plugins.maproom;

import java.util.concurrent.Executor;
import java.util.function.BooleanSupplier;

import javax.swing.Timer;

/**
 * Runs a *tick* soon after something changed, but never in the middle of a gesture: JOSM's tools hold references to
 * elements until the mouse button is released, and undo their own commands.
 */
final class Ticks {
    /** After how many milliseconds it is looked again whether a gesture is over. */
    private static final int GESTURE_PAUSE = 50;

    private final BooleanSupplier isBusy;
    private final Executor loop;
    private final Runnable action;
    private final Timer timer = new Timer(GESTURE_PAUSE, event -> run());
    private boolean isComing;
    private boolean isClosed;

    /**
     * Makes ticks, of which none comes yet.
     * @param isBusy returns whether the mapper is in a gesture
     * @param loop runs something on JOSM's event thread, later
     * @param action what a tick does
     */
    Ticks(BooleanSupplier isBusy, Executor loop, Runnable action) {
        this.isBusy = isBusy;
        this.loop = loop;
        this.action = action;
        timer.setRepeats(false);
    }

    /** Makes a tick come. Any thread may call this. */
    void soon() {
        synchronized (this) {
            if (isComing) return;
            isComing = true;
        }
        loop.execute(this::run);
    }

    /** Makes a tick that waits for the end of a gesture come at once. */
    void wake() {
        if (!timer.isRunning()) return;
        timer.stop();
        loop.execute(this::run);
    }

    /** Returns whether a tick comes. */
    synchronized boolean isComing() {
        return isComing;
    }

    /** Makes no tick come any more. */
    void close() {
        isClosed = true;
        timer.stop();
    }

    private void run() {
        if (isClosed) return;
        timer.stop();
        if (isBusy.getAsBoolean()) {
            timer.start();
            return;
        }
        synchronized (this) {
            isComing = false;
        }
        action.run();
    }
}
