// License: GPL v2 or later. For details, see the file LICENSE.
package org.openstreetmap.josm.plugins.maproom;

import java.awt.AWTEvent;
import java.awt.Dialog;
import java.awt.Toolkit;
import java.awt.Window;
import java.awt.event.InputEvent;
import java.awt.event.MouseEvent;
import java.util.Arrays;

import javax.swing.SwingUtilities;

import org.openstreetmap.josm.gui.MainApplication;

/**
 * Knows whether the mapper is in the middle of something: a mouse button is down, or a dialog asks. JOSM's tools count
 * on a data set that nobody else changes until then.
 */
final class Gestures {
    private static final int BUTTONS = InputEvent.BUTTON1_DOWN_MASK | InputEvent.BUTTON2_DOWN_MASK
            | InputEvent.BUTTON3_DOWN_MASK;

    private static boolean isDown;

    private Gestures() {
        // only functions
    }

    static void watch() {
        Toolkit.getDefaultToolkit().addAWTEventListener(event -> {
            if (!(event instanceof MouseEvent)) return;
            boolean wasDown = isDown;
            isDown = (((MouseEvent) event).getModifiersEx() & BUTTONS) != 0;
            // The tool takes the release first, and may ask something, or add a command.
            if (wasDown && !isDown) SwingUtilities.invokeLater(Gestures::wake);
        }, AWTEvent.MOUSE_EVENT_MASK | AWTEvent.MOUSE_MOTION_EVENT_MASK);
    }

    private static void wake() {
        MainApplication.getLayerManager().getLayersOfType(RoomLayer.class).forEach(layer -> layer.session().wake());
    }

    static boolean isBusy() {
        return isDown || Arrays.stream(Window.getWindows())
                .anyMatch(each -> each instanceof Dialog && each.isShowing() && ((Dialog) each).isModal());
    }
}
