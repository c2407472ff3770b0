// License: GPL v2 or later. For details, see the file LICENSE.
package org.openstreetmap.josm.plugins.maproom;

import java.util.Collection;
import java.util.LinkedHashSet;
import java.util.List;
import java.util.Set;

import org.openstreetmap.josm.data.osm.DataSet;
import org.openstreetmap.josm.data.osm.OsmPrimitive;
import org.openstreetmap.josm.data.osm.event.AbstractDatasetChangedEvent;
import org.openstreetmap.josm.data.osm.event.AbstractDatasetChangedEvent.DatasetEventType;
import org.openstreetmap.josm.data.osm.event.DataChangedEvent;
import org.openstreetmap.josm.data.osm.event.DataSetListenerAdapter;

/**
 * The elements that the mapper may have changed, whatever changed them: a command, a tool that changes its last
 * command again, or a plugin without commands.
 */
final class DirtyElements {
    private final DataSet data;
    private final Runnable changed;
    private final DataSetListenerAdapter listener = new DataSetListenerAdapter(this::hear);
    private Set<Name> names = new LinkedHashSet<>();
    private boolean isAll;
    private volatile boolean isDeaf;

    /**
     * Makes an empty set, which does not listen yet.
     * @param changed is called after each event, on the thread of the event, which may be any
     */
    DirtyElements(DataSet data, Runnable changed) {
        this.data = data;
        this.changed = changed;
    }

    /** Listens to the data set from now on. */
    void open() {
        data.addDataSetListener(listener);
    }

    /** Listens no more. */
    void close() {
        data.removeDataSetListener(listener);
    }

    /** Does something to the data set at once, whose events are the room's and not the mapper's. */
    void withoutHearing(Runnable action) {
        data.beginUpdate();
        try {
            action.run();
        } finally {
            isDeaf = true;
            try {
                data.endUpdate(); // JOSM reports all events here
            } finally {
                isDeaf = false;
            }
        }
    }

    /** Returns whether no element is dirty. */
    synchronized boolean isEmpty() {
        return names.isEmpty() && !isAll;
    }

    /**
     * Empties the set.
     * @param known all elements that the room had, which JOSM may have taken out of the data set
     * @return the names that the ids in JOSM give
     */
    Set<Name> take(Collection<OsmPrimitive> known) {
        Set<Name> taken;
        boolean isWhole;
        synchronized (this) {
            taken = names;
            names = new LinkedHashSet<>();
            isWhole = isAll;
            isAll = false;
        }
        if (isWhole) {
            known.forEach(each -> taken.add(Name.ofPrimitive(each)));
            data.allPrimitives().forEach(each -> taken.add(Name.ofPrimitive(each)));
        }
        return taken;
    }

    private void hear(AbstractDatasetChangedEvent event) {
        if (isDeaf) return;
        synchronized (this) {
            mark(event);
        }
        changed.run();
    }

    private void mark(AbstractDatasetChangedEvent event) {
        DatasetEventType type = event.getType();
        if (event instanceof DataChangedEvent) {
            List<AbstractDatasetChangedEvent> events = ((DataChangedEvent) event).getEvents();
            if (events == null) isAll = true;
            else events.forEach(this::mark);
        } else if (type != DatasetEventType.CHANGESET_ID_CHANGED && type != DatasetEventType.PRIMITIVE_FLAGS_CHANGED) {
            for (OsmPrimitive each : event.getPrimitives()) names.add(Name.ofPrimitive(each));
        }
    }
}
