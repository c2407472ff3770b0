// License: GPL v2 or later. For details, see the file LICENSE.
package org.openstreetmap.josm.plugins.maproom;

import static org.openstreetmap.josm.tools.I18n.tr;

import java.util.List;
import java.util.concurrent.CopyOnWriteArrayList;

import javax.swing.JOptionPane;
import javax.swing.SwingUtilities;

import org.openstreetmap.josm.data.DataSource;
import org.openstreetmap.josm.data.ProjectionBounds;
import org.openstreetmap.josm.data.osm.DataSet;
import org.openstreetmap.josm.data.osm.DownloadPolicy;
import org.openstreetmap.josm.data.osm.UploadPolicy;
import org.openstreetmap.josm.data.osm.visitor.BoundingXYVisitor;
import org.openstreetmap.josm.data.projection.ProjectionRegistry;
import org.openstreetmap.josm.gui.MainApplication;
import org.openstreetmap.josm.gui.Notification;
import org.openstreetmap.josm.gui.layer.Layer;
import org.openstreetmap.josm.gui.layer.OsmDataLayer;
import org.openstreetmap.josm.tools.Utils;

/**
 * A layer that shows a room's map. The room has each change at once, so there is nothing to upload. JOSM warns before
 * the layer goes, at its exit too, if changes still wait for the room.
 */
final class RoomLayer extends OsmDataLayer {
    /** Those who show something of the layers' rooms. */
    static final List<Runnable> LISTENERS = new CopyOnWriteArrayList<>();

    private final LiveSession session;
    private final String room;
    private boolean isAdded;

    private RoomLayer(DataSet data, String address, String room, String name) {
        super(data, room, null);
        this.room = room;
        session = new LiveSession(data, address, room, name, Gestures::isBusy, SwingUtilities::invokeLater, new Ear());
    }

    /** Joins a room. The layer appears when the map has come. */
    static void join(String address, String room, String name) {
        for (RoomLayer each : MainApplication.getLayerManager().getLayersOfType(RoomLayer.class)) {
            // Two layers with one name would undo each other's work.
            if (each.room.equals(room) && each.session.author().equals(name)) {
                MainApplication.getLayerManager().setActiveLayer(each);
                return;
            }
        }
        DataSet data = new DataSet();
        data.setUploadPolicy(UploadPolicy.BLOCKED);
        data.setDownloadPolicy(DownloadPolicy.BLOCKED);
        // The room has all of its map, so JOSM has no reason to warn of what lies outside.
        data.addDataSource(new DataSource(ProjectionRegistry.getProjection().getWorldBoundsLatLon(), "maproom"));
        new RoomLayer(data, address, room, name).session.open();
        new Notification(tr("Joining the room {0}...", room)).setDuration(Notification.TIME_SHORT).show();
    }

    LiveSession session() {
        return session;
    }

    String room() {
        return room;
    }

    /** Returns where the elements are: the room itself has no borders. */
    @Override
    public ProjectionBounds getViewProjectionBounds() {
        BoundingXYVisitor visitor = new BoundingXYVisitor();
        visitBoundingBox(visitor);
        visitor.enlargeBoundingBox();
        return visitor.getBounds();
    }

    @Override
    public boolean isMergable(Layer other) {
        return false;
    }

    @Override
    public boolean requiresUploadToServer() {
        return false;
    }

    /** Returns whether changes wait for the room. JOSM asks this before the layer goes, and at its exit. */
    @Override
    public boolean requiresSaveToFile() {
        return session != null && session.pending() > 0; // JOSM's constructor asks, too
    }

    /** Returns false when JOSM adds the layer, so that JOSM keeps no backups of what the room has. */
    @Override
    public boolean isSavable() {
        return isAdded;
    }

    @Override
    public boolean checkSaveConditions() {
        return true;
    }

    @Override
    public synchronized void destroy() {
        if (session != null) session.close();
        super.destroy();
        reportChange();
    }

    private static void reportChange() {
        LISTENERS.forEach(Runnable::run);
    }

    private final class Ear implements LiveSession.Watcher {
        @Override
        public void entered() {
            MainApplication.getLayerManager().addLayer(RoomLayer.this);
            isAdded = true;
            reportChange();
        }

        @Override
        public void warn(String text) {
            // JOSM shows HTML, and the text has tags of others.
            new Notification().setContent(Utils.escapeReservedCharactersHTML(text))
                    .setIcon(JOptionPane.WARNING_MESSAGE).setDuration(Notification.TIME_LONG).show();
        }

        @Override
        public void changed() {
            if (isAdded) reportChange();
        }

        @Override
        public void ended(String why) {
            if (why == null) return;
            JOptionPane.showMessageDialog(MainApplication.getMainFrame(), why, tr("Room {0}", room),
                    JOptionPane.ERROR_MESSAGE);
            if (isAdded) MainApplication.getLayerManager().removeLayer(RoomLayer.this);
            else session.close();
            reportChange();
        }
    }
}
