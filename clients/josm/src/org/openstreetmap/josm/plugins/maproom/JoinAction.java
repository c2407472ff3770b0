// License: GPL v2 or later. For details, see the file LICENSE.
package org.openstreetmap.josm.plugins.maproom;

import static org.openstreetmap.josm.tools.I18n.tr;

import java.awt.GridBagLayout;
import java.awt.event.ActionEvent;
import java.awt.event.KeyEvent;
import java.net.URI;

import javax.swing.JLabel;
import javax.swing.JOptionPane;
import javax.swing.JPanel;

import org.openstreetmap.josm.actions.JosmAction;
import org.openstreetmap.josm.gui.ExtendedDialog;
import org.openstreetmap.josm.gui.MainApplication;
import org.openstreetmap.josm.gui.widgets.JosmTextField;
import org.openstreetmap.josm.spi.preferences.Config;
import org.openstreetmap.josm.tools.GBC;
import org.openstreetmap.josm.tools.Shortcut;

/** Asks for a room, and joins it in a layer of its own. */
final class JoinAction extends JosmAction {
    JoinAction() {
        super(tr("Join room..."), "maproom", tr("Edit a map together with others"),
                Shortcut.registerShortcut("maproom:join", tr("File: {0}", tr("Join room...")),
                        KeyEvent.CHAR_UNDEFINED, Shortcut.NONE),
                true, "maproom/join", false);
    }

    @Override
    public void actionPerformed(ActionEvent event) {
        JosmTextField address = field("address", "ws://127.0.0.1:9001");
        JosmTextField room = field("room", "hamlet");
        JosmTextField name = field("name", System.getProperty("user.name", ""));
        JPanel panel = new JPanel(new GridBagLayout());
        panel.add(new JLabel(tr("Address")), GBC.std().insets(0, 0, 10, 5));
        panel.add(address, GBC.eol().fill(GBC.HORIZONTAL));
        panel.add(new JLabel(tr("Room")), GBC.std().insets(0, 0, 10, 5));
        panel.add(room, GBC.eol().fill(GBC.HORIZONTAL));
        panel.add(new JLabel(tr("Your name in the room")), GBC.std().insets(0, 0, 10, 5));
        panel.add(name, GBC.eol().fill(GBC.HORIZONTAL));
        ExtendedDialog dialog = new ExtendedDialog(MainApplication.getMainFrame(), tr("Join room"), tr("Join"),
                tr("Cancel"));
        dialog.setButtonIcons("ok", "cancel");
        dialog.setContent(panel, false);
        if (dialog.showDialog().getValue() != 1) return;
        String fault = faultOf(address.getText().trim(), room.getText().trim(), name.getText().trim());
        if (fault != null) {
            JOptionPane.showMessageDialog(MainApplication.getMainFrame(), fault, tr("Join room"),
                    JOptionPane.WARNING_MESSAGE);
            return;
        }
        Config.getPref().put("maproom.address", withoutPassword(address.getText().trim()));
        Config.getPref().put("maproom.room", room.getText().trim());
        Config.getPref().put("maproom.name", name.getText().trim());
        RoomLayer.join(address.getText().trim(), room.getText().trim(), name.getText().trim());
    }

    private static JosmTextField field(String key, String given) {
        return new JosmTextField(Config.getPref().get("maproom." + key, given), 30);
    }

    /** Returns an address without its password, which JOSM's file of preferences need not have. */
    private static String withoutPassword(String address) {
        return address.replaceFirst("(//[^/:@]*):[^/]*@", "$1@");
    }

    private static String faultOf(String address, String room, String name) {
        try {
            String scheme = URI.create(address).getScheme();
            if (!"ws".equals(scheme) && !"wss".equals(scheme)) {
                return tr("The address has to begin with ws:// or wss://.");
            }
        } catch (IllegalArgumentException e) {
            return tr("{0} is no address.", address);
        }
        if (!room.matches("[a-z0-9_]{1,32}") || !name.matches("[a-z0-9_]{1,32}")) {
            return tr("A room and a name have 1 to 32 characters of a-z, 0-9 and _.");
        }
        return null;
    }
}
