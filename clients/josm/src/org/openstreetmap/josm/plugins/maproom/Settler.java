// License: GPL v2 or later. For details, see the file LICENSE.
package org.openstreetmap.josm.plugins.maproom;

import java.util.ArrayList;
import java.util.Collection;
import java.util.Iterator;
import java.util.LinkedHashSet;
import java.util.List;
import java.util.Map;
import java.util.Set;
import java.util.TreeMap;

import org.openstreetmap.josm.data.coor.LatLon;
import org.openstreetmap.josm.data.osm.DataSet;
import org.openstreetmap.josm.data.osm.Node;
import org.openstreetmap.josm.data.osm.NodeData;
import org.openstreetmap.josm.data.osm.OsmPrimitive;
import org.openstreetmap.josm.data.osm.PrimitiveData;
import org.openstreetmap.josm.data.osm.Relation;
import org.openstreetmap.josm.data.osm.RelationMember;
import org.openstreetmap.josm.data.osm.Way;

/**
 * Makes the data set show the overlay. Elements that others delete stay in the data set as deleted primitives, as
 * after JOSM's own delete, because windows and tools may hold them.
 */
final class Settler {
    private final DataSet data;
    private final Primitives primitives;
    private final Overlay overlay;
    /** What is marked as modified because an undo or a redo waits, or null. */
    private OsmPrimitive marked;

    Settler(DataSet data, Primitives primitives, Overlay overlay) {
        this.data = data;
        this.primitives = primitives;
        this.overlay = overlay;
    }

    /** Fills the empty data set with the map of a room. */
    void fill(Map<Name, Row> map) {
        data.beginUpdate();
        try {
            write(new TreeMap<>(map));
        } finally {
            data.endUpdate();
        }
    }

    /** Makes the data set show the overlay wherever it may differ and can be consistent. The rest waits. */
    void settle() {
        Map<Name, Row> wanted = new TreeMap<>();
        List<Name> gone = new ArrayList<>();
        for (Name name : overlay.unsettled()) {
            Row row = overlay.get(name);
            if (row != null) wanted.put(name, row);
            else gone.add(name);
        }
        leaveUnfit(wanted);
        write(wanted);
        wanted.keySet().forEach(overlay::settle);
        remove(gone);
    }

    /** Leaves out what refers to elements that the data set cannot show now: they are deleted in it, or missing. */
    private void leaveUnfit(Map<Name, Row> wanted) {
        boolean isLess = true;
        while (isLess) {
            isLess = wanted.values().removeIf(row -> !row.allReferences(
                    name -> wanted.containsKey(name) || Primitives.isUsable(primitives.get(name))));
        }
    }

    private void write(Map<Name, Row> wanted) {
        wanted.values().forEach(this::revive);
        wanted.values().forEach(this::fill);
    }

    /** Makes the primitive of an element, or brings it back, without its list. */
    private void revive(Row row) {
        OsmPrimitive primitive = primitives.get(row.name);
        if (primitive == null || primitive.getDataSet() == null) {
            primitive = primitives.make(row);
        } else if (primitive.isDeleted()) {
            empty(primitive);
            primitive.setDeleted(false);
        }
        if (primitive.isIncomplete()) complete(primitive, row);
    }

    private void fill(Row row) {
        OsmPrimitive primitive = primitives.get(row.name);
        if (!primitive.getKeys().equals(row.tags)) primitive.setKeys(row.tags);
        if (primitive instanceof Node) {
            LatLon position = Primitives.positionOf(row);
            if (!position.equals(((Node) primitive).getCoor())) ((Node) primitive).setCoor(position);
        } else if (primitive instanceof Way) {
            List<Node> nodes = new ArrayList<>(row.nodes.length);
            for (long id : row.nodes) nodes.add((Node) primitives.get(new Name('n', id)));
            if (!nodes.equals(((Way) primitive).getNodes())) ((Way) primitive).setNodes(nodes);
        } else {
            List<RelationMember> members = new ArrayList<>(row.members.size());
            for (int i = 0; i < row.members.size(); i++) {
                members.add(new RelationMember(row.roles.get(i), primitives.get(row.members.get(i))));
            }
            if (!members.equals(((Relation) primitive).getMembers())) ((Relation) primitive).setMembers(members);
        }
        mark(primitive, row.name);
    }

    /** Makes a primitive complete that JOSM's purge has emptied. */
    private static void complete(OsmPrimitive primitive, Row row) {
        PrimitiveData saved = primitive.save();
        saved.setIncomplete(false);
        if (saved instanceof NodeData) ((NodeData) saved).setCoor(Primitives.positionOf(row));
        primitive.load(saved);
    }

    private static void empty(OsmPrimitive primitive) {
        if (primitive instanceof Way) ((Way) primitive).setNodes(null);
        else if (primitive instanceof Relation) ((Relation) primitive).setMembers(null);
    }

    /** Deletes elements as JOSM does. Elements that something in the data set uses wait. */
    private void remove(Collection<Name> gone) {
        Set<OsmPrimitive> doomed = new LinkedHashSet<>();
        for (Name name : gone) {
            OsmPrimitive primitive = primitives.get(name);
            if (Primitives.isUsable(primitive)) {
                doomed.add(primitive);
                continue;
            }
            if (primitive != null && primitive.getDataSet() != null) mark(primitive, name);
            overlay.settle(name);
        }
        boolean isLess = true;
        while (isLess) {
            isLess = false;
            for (Iterator<OsmPrimitive> each = doomed.iterator(); each.hasNext();) {
                if (!doomed.containsAll(each.next().getReferrers())) {
                    each.remove();
                    isLess = true;
                }
            }
        }
        if (doomed.stream().anyMatch(data::isSelected)) data.clearSelection(doomed);
        doomed.forEach(Settler::empty);
        for (OsmPrimitive each : doomed) {
            each.setDeleted(true);
            mark(each, primitives.nameOf(each));
            overlay.settle(primitives.nameOf(each));
        }
    }

    /** Marks any primitive as modified while an undo or a redo waits, because it changes no primitive until then. */
    void markWaiting(boolean isWaiting) {
        OsmPrimitive last = marked;
        if (!isWaiting) marked = null;
        else if (last == null) marked = data.allPrimitives().stream().findFirst().orElse(null);
        if (marked != null && marked.getDataSet() != null) marked.setModified(true);
        else if (last != null && last.getDataSet() != null) mark(last, primitives.nameOf(last));
    }

    /** Marks a primitive as modified if its change waits for the room, so that JOSM warns before the layer goes. */
    private void mark(OsmPrimitive primitive, Name name) {
        boolean isWaiting = overlay.isChanging(name);
        if (primitive.isModified() != isWaiting) primitive.setModified(isWaiting);
    }
}
