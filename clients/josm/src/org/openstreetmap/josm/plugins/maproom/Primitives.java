// License: GPL v2 or later. For details, see the file LICENSE.
package org.openstreetmap.josm.plugins.maproom;

import java.util.ArrayList;
import java.util.Collection;
import java.util.Collections;
import java.util.HashMap;
import java.util.List;
import java.util.Map;
import java.util.TreeMap;
import java.util.concurrent.ThreadLocalRandom;
import java.util.function.Predicate;

import org.openstreetmap.josm.data.coor.LatLon;
import org.openstreetmap.josm.data.osm.DataSet;
import org.openstreetmap.josm.data.osm.Node;
import org.openstreetmap.josm.data.osm.OsmPrimitive;
import org.openstreetmap.josm.data.osm.OsmPrimitiveType;
import org.openstreetmap.josm.data.osm.Relation;
import org.openstreetmap.josm.data.osm.RelationMember;
import org.openstreetmap.josm.data.osm.SimplePrimitiveId;
import org.openstreetmap.josm.data.osm.UniqueIdGenerator;
import org.openstreetmap.josm.data.osm.Way;

/**
 * The primitive of each element, and its name in the room. A new element keeps JOSM's negative id as its number in the
 * room, unless somebody else was quicker.
 */
final class Primitives {
    /** New elements of this JOSM get ids below a random number, so that those of two mappers rarely meet. */
    private static final long LEAST_FIRST_ID = -(1L << 51);
    private static final long GREATEST_FIRST_ID = -(1L << 32);
    /** JOSM counts its ids down. It has to skip an id of the room that it would come to soon. */
    private static final long NEAR = 1_000_000_000;
    /** An element of the room with a lower id gets another id in JOSM. */
    private static final long LEAST_ID = -(1L << 52);

    private final DataSet data;
    /** The primitive of each element that the room had, or that the mapper made; also if it is deleted. */
    private final Map<Name, OsmPrimitive> all = new HashMap<>();
    /** The room's name of a primitive whose id in JOSM is another one. */
    private final Map<Name, Name> roomNames = new HashMap<>();

    Primitives(DataSet data) {
        this.data = data;
    }

    /** Returns the primitive of an element, which may be deleted; null if there was none. */
    OsmPrimitive get(Name name) {
        return all.get(name);
    }

    /** Returns all primitives, also those that are deleted. */
    Collection<OsmPrimitive> all() {
        return all.values();
    }

    /** Returns the room's name of a primitive. */
    Name nameOf(OsmPrimitive primitive) {
        Name inJosm = Name.ofPrimitive(primitive);
        return roomNames.getOrDefault(inJosm, inJosm);
    }

    /** Returns whether a primitive is in the data set, and not deleted. */
    static boolean isUsable(OsmPrimitive primitive) {
        return primitive != null && primitive.getDataSet() != null && !primitive.isDeleted();
    }

    // ---- Ids.

    /** Makes JOSM's counters of ids begin at a random number. */
    static void pickIds() {
        if (Boolean.getBoolean("maproom.low.ids")) return; // tests, in which names have to meet
        for (char kind : new char[] {'n', 'w', 'r'}) {
            UniqueIdGenerator generator = generator(new Name(kind, 1).type());
            if (generator.currentUniqueId() > GREATEST_FIRST_ID) {
                generator.advanceUniqueId(ThreadLocalRandom.current().nextLong(LEAST_FIRST_ID, GREATEST_FIRST_ID));
            }
        }
    }

    private static UniqueIdGenerator generator(OsmPrimitiveType type) {
        return type.newInstance(1, true).getIdGenerator();
    }

    private Name free(Name like, Predicate<Name> isTaken) {
        Name free = like;
        while (all.containsKey(free) || isTaken.test(free)) {
            free = new Name(like.kind, generator(like.type()).generateUniqueId());
        }
        return free;
    }

    // ---- From the mapper.

    /**
     * Finds the room's name of a primitive that may have changed, or makes one for a new primitive.
     * @param inJosm the name that its id in JOSM gives
     * @param isTaken returns whether an element of the room has a name
     * @return the room's name, or null if no element of this name was or is there
     */
    Name bind(Name inJosm, Predicate<Name> isTaken) {
        OsmPrimitive primitive = data.getPrimitiveById(new SimplePrimitiveId(inJosm.id, inJosm.type()));
        Name name = roomNames.getOrDefault(inJosm, inJosm);
        OsmPrimitive known = all.get(name);
        if (primitive == null || known == primitive) return known == null ? null : name;
        if (known != null && known.getDataSet() == null && Name.ofPrimitive(known).equals(inJosm)) {
            all.put(name, primitive); // a command made it anew
            return name;
        }
        if (primitive.isDeleted()) { // it came and went in one gesture
            primitive.setModified(false);
            return null;
        }
        Name free = free(name, isTaken);
        if (!free.equals(inJosm)) roomNames.put(inJosm, free);
        all.put(free, primitive);
        return free;
    }

    /**
     * Gives a new element another name.
     * @param taken its name, which somebody else took
     * @param isTaken returns whether an element of the room has a name
     * @return the new name
     */
    Name rename(Name taken, Predicate<Name> isTaken) {
        OsmPrimitive primitive = all.remove(taken);
        Name free = free(taken, name -> name.equals(taken) || isTaken.test(name));
        roomNames.put(Name.ofPrimitive(primitive), free);
        all.put(free, primitive);
        return free;
    }

    /**
     * Returns what the data set has of an element, or null if it is deleted.
     * @param isInRoom whether the room has the element
     * @throws Unfit if a room cannot hold it
     */
    Row stateOf(Name name, boolean isInRoom) throws Unfit {
        OsmPrimitive primitive = all.get(name);
        if (primitive.isDeleted()) return null;
        if (primitive.getDataSet() == null) {
            if (isInRoom) throw new Unfit("purge", name);
            return null;
        }
        return rowOf(primitive, name);
    }

    private Row rowOf(OsmPrimitive primitive, Name name) throws Unfit {
        if (primitive.isIncomplete()) throw new Unfit("incomplete", name);
        Map<String, String> tags = primitive.hasKeys() ? new TreeMap<>(primitive.getKeys()) : Collections.emptyMap();
        if (primitive instanceof Node) {
            Node node = (Node) primitive;
            if (!node.isLatLonKnown()) throw new Unfit("no_position", name);
            return Row.node(name, tags, Math.round(node.lat() * Row.UNITS), Math.round(node.lon() * Row.UNITS));
        }
        if (primitive instanceof Way) {
            List<Node> nodes = ((Way) primitive).getNodes();
            return Row.way(name, tags, nodes.stream().mapToLong(each -> nameOf(each).id).toArray());
        }
        List<Name> members = new ArrayList<>();
        List<String> roles = new ArrayList<>();
        for (RelationMember each : ((Relation) primitive).getMembers()) {
            members.add(nameOf(each.getMember()));
            roles.add(each.getRole());
        }
        return Row.relation(name, tags, members, roles);
    }

    /** Returns the data set as a map of the room's names. An element that a room cannot hold is null. */
    Map<Name, Row> map() {
        Map<Name, Row> map = new TreeMap<>();
        for (OsmPrimitive each : data.allPrimitives()) {
            if (each.isDeleted()) continue;
            Name name = nameOf(each);
            try {
                map.put(name, rowOf(each, name));
            } catch (Unfit e) {
                map.put(name, null);
            }
        }
        return map;
    }

    // ---- From the room.

    /** Makes the primitive of an element without its tags and its list, and adds it to the data set. */
    OsmPrimitive make(Row row) {
        OsmPrimitiveType type = row.name.type();
        long id = row.name.id;
        boolean isFree = id > LEAST_ID && data.getPrimitiveById(new SimplePrimitiveId(id, type)) == null;
        OsmPrimitive primitive;
        if (isFree && id > 0) {
            primitive = type.newVersionedInstance(id, 1);
        } else {
            UniqueIdGenerator generator = generator(type);
            long distance = generator.currentUniqueId() - id;
            if (!isFree) id = generator.generateUniqueId();
            else if (distance > 0 && distance < NEAR) generator.advanceUniqueId(id);
            primitive = type.newInstance(id, true);
        }
        if (primitive instanceof Node) ((Node) primitive).setCoor(positionOf(row));
        Name inJosm = Name.ofPrimitive(primitive);
        if (inJosm.equals(row.name)) roomNames.remove(inJosm);
        else roomNames.put(inJosm, row.name);
        data.addPrimitive(primitive);
        all.put(row.name, primitive);
        return primitive;
    }

    /** Returns the position of a node for JOSM. */
    static LatLon positionOf(Row row) {
        return new LatLon(row.lat / Row.UNITS, row.lon / Row.UNITS);
    }
}
