// License: GPL v2 or later. For details, see the file LICENSE.
package org.openstreetmap.josm.plugins.maproom;

import static org.openstreetmap.josm.tools.I18n.tr;

import java.awt.BorderLayout;
import java.awt.event.ActionEvent;
import java.awt.event.KeyEvent;
import java.awt.event.MouseAdapter;
import java.awt.event.MouseEvent;
import java.text.SimpleDateFormat;
import java.util.ArrayList;
import java.util.Date;
import java.util.List;

import javax.swing.AbstractAction;
import javax.swing.DefaultListModel;
import javax.swing.JCheckBox;
import javax.swing.JLabel;
import javax.swing.JList;
import javax.swing.JPanel;
import javax.swing.JScrollPane;
import javax.swing.ListSelectionModel;
import javax.swing.SwingUtilities;

import org.openstreetmap.josm.actions.AutoScaleAction;
import org.openstreetmap.josm.data.osm.OsmPrimitive;
import org.openstreetmap.josm.gui.MainApplication;
import org.openstreetmap.josm.gui.SideButton;
import org.openstreetmap.josm.gui.dialogs.ToggleDialog;
import org.openstreetmap.josm.tools.ImageProvider;
import org.openstreetmap.josm.tools.Shortcut;

/**
 * A panel with the state of the room, who changed something in it, and its last changes. A double click selects what a
 * change was about, and shows it.
 */
final class RoomDialog extends ToggleDialog {
    private final JLabel state = new JLabel();
    private final JLabel people = new JLabel();
    private final JCheckBox isMineOnly = new JCheckBox(tr("Only my changes"));
    private final DefaultListModel<String> texts = new DefaultListModel<>();
    private final List<History.Entry> entries = new ArrayList<>();
    private final JList<String> list = new JList<>(texts);
    private final UndoEntryAction undo = new UndoEntryAction();
    private final Runnable listener = this::updateSoon;
    private boolean isUpdateComing;

    RoomDialog() {
        super(tr("Room"), "maproom", tr("Who works in the room, and what changed"),
                Shortcut.registerShortcut("maproom:panel", tr("Windows: {0}", tr("Room")), KeyEvent.CHAR_UNDEFINED,
                        Shortcut.NONE),
                180, true);
        JPanel top = new JPanel(new BorderLayout());
        top.add(state, BorderLayout.NORTH);
        top.add(people, BorderLayout.CENTER);
        top.add(isMineOnly, BorderLayout.SOUTH);
        JPanel panel = new JPanel(new BorderLayout());
        panel.add(top, BorderLayout.NORTH);
        isMineOnly.addActionListener(event -> update());
        list.setSelectionMode(ListSelectionModel.SINGLE_SELECTION);
        list.addListSelectionListener(event -> undo.update());
        list.addMouseListener(new MouseAdapter() {
            @Override
            public void mouseClicked(MouseEvent event) {
                if (event.getClickCount() == 2) show(list.locationToIndex(event.getPoint()));
            }
        });
        panel.add(new JScrollPane(list), BorderLayout.CENTER);
        createLayout(panel, false, List.of(new SideButton(undo)));
        RoomLayer.LISTENERS.add(listener);
        update();
    }

    @Override
    public void destroy() {
        RoomLayer.LISTENERS.remove(listener);
        super.destroy();
    }

    /** Returns the room of the edited layer, or else any room, or null. */
    private static RoomLayer layer() {
        if (MainApplication.getLayerManager().getEditLayer() instanceof RoomLayer) {
            return (RoomLayer) MainApplication.getLayerManager().getEditLayer();
        }
        List<RoomLayer> all = MainApplication.getLayerManager().getLayersOfType(RoomLayer.class);
        return all.isEmpty() ? null : all.get(0);
    }

    /** Many changes at once need one update. */
    private void updateSoon() {
        if (isUpdateComing) return;
        isUpdateComing = true;
        SwingUtilities.invokeLater(this::update);
    }

    private void update() {
        isUpdateComing = false;
        History.Entry chosen = chosen();
        RoomLayer layer = layer();
        texts.clear();
        entries.clear();
        if (layer == null) {
            state.setText(tr("No room joined"));
            people.setText(" ");
        } else {
            LiveSession session = layer.session();
            state.setText(session.author() + " in " + layer.room() + ": " + stateOf(session));
            people.setText(peopleOf(session));
            for (History.Entry each : session.history.entries()) {
                if (!isMineOnly.isSelected() || each.author.equals(session.author())) {
                    entries.add(each);
                    texts.addElement(timeOf(each.time) + "  " + each.author + "  " + each.text);
                }
            }
        }
        if (entries.contains(chosen)) list.setSelectedIndex(entries.indexOf(chosen));
        undo.update();
    }

    private static String stateOf(LiveSession session) {
        int count = session.pending();
        String waiting = count == 0 ? "" : tr("{0} waiting", count);
        if (session.state() != RoomConnection.State.OPEN) {
            return tr("not connected") + (count == 0 ? "" : ", " + waiting);
        }
        return count == 0 ? tr("saved") : waiting;
    }

    private static String peopleOf(LiveSession session) {
        List<String> others = new ArrayList<>();
        session.history.people().forEach((name, time) -> {
            if (!name.equals(session.author())) others.add(name + " (" + timeOf(time) + ")");
        });
        if (others.isEmpty()) return tr("Nobody else has changed anything yet");
        return tr("Also here: {0}", String.join(", ", others));
    }

    private static String timeOf(long time) {
        return new SimpleDateFormat("HH:mm:ss").format(new Date(time));
    }

    private History.Entry chosen() {
        int index = list.getSelectedIndex();
        return index >= 0 && index < entries.size() ? entries.get(index) : null;
    }

    /** Undoes the chosen entry, also if later entries of the mapper cannot be undone. */
    private final class UndoEntryAction extends AbstractAction {
        UndoEntryAction() {
            putValue(NAME, tr("Undo this change"));
            putValue(SHORT_DESCRIPTION, tr("Undo the chosen change, if it is yours and nobody built on it"));
            new ImageProvider("undo").getResource().attachImageIcon(this, true);
        }

        /** Enables the button if the chosen entry is the mapper's, and active. */
        void update() {
            RoomLayer layer = layer();
            History.Entry entry = chosen();
            setEnabled(layer != null && entry != null && layer.session().lists.canUndo(entry.seq));
        }

        @Override
        public void actionPerformed(ActionEvent event) {
            RoomLayer layer = layer();
            History.Entry entry = chosen();
            if (layer != null && entry != null) layer.session().undoEntry(entry.seq);
        }
    }

    private void show(int index) {
        RoomLayer layer = layer();
        if (layer == null || index < 0 || index >= entries.size()) return;
        List<OsmPrimitive> found = new ArrayList<>();
        for (Name each : entries.get(index).names) {
            OsmPrimitive primitive = layer.session().primitives.get(each);
            if (Primitives.isUsable(primitive)) found.add(primitive);
        }
        if (found.isEmpty()) return;
        layer.getDataSet().setSelected(found);
        AutoScaleAction.zoomTo(found);
    }
}
