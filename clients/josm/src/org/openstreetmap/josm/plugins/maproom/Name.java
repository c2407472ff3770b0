// License: GPL v2 or later. For details, see the file LICENSE.
package org.openstreetmap.josm.plugins.maproom;

import org.openstreetmap.josm.data.osm.OsmPrimitiveType;
import org.openstreetmap.josm.data.osm.PrimitiveId;

/** The room's name of an element, such as n-7: a kind and an id. Names are ordered as in the protocol. */
final class Name implements Comparable<Name> {
    private static final String KINDS = "nwr";

    /** n, w or r. */
    final char kind;
    final long id;

    Name(char kind, long id) {
        this.kind = kind;
        this.id = id;
    }

    /**
     * Reads a name.
     * @throws IllegalArgumentException if the text is no name
     */
    static Name of(String text) {
        if (text.isEmpty() || KINDS.indexOf(text.charAt(0)) < 0) {
            throw new IllegalArgumentException("no name: " + text);
        }
        return new Name(text.charAt(0), Long.parseLong(text.substring(1)));
    }

    /** Returns the name with the kind and the number that JOSM gives a primitive. */
    static Name ofPrimitive(PrimitiveId primitive) {
        switch (primitive.getType()) {
        case NODE: return new Name('n', primitive.getUniqueId());
        case WAY: return new Name('w', primitive.getUniqueId());
        default: return new Name('r', primitive.getUniqueId());
        }
    }

    OsmPrimitiveType type() {
        return kind == 'n' ? OsmPrimitiveType.NODE : kind == 'w' ? OsmPrimitiveType.WAY : OsmPrimitiveType.RELATION;
    }

    @Override
    public int compareTo(Name other) {
        int byKind = Integer.compare(KINDS.indexOf(kind), KINDS.indexOf(other.kind));
        return byKind != 0 ? byKind : Long.compare(id, other.id);
    }

    @Override
    public boolean equals(Object other) {
        return other instanceof Name && ((Name) other).kind == kind && ((Name) other).id == id;
    }

    @Override
    public int hashCode() {
        return Long.hashCode(id) * 31 + kind;
    }

    @Override
    public String toString() {
        return kind + Long.toString(id);
    }
}
