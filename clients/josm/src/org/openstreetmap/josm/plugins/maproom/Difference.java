// License: GPL v2 or later. For details, see the file LICENSE.
package org.openstreetmap.josm.plugins.maproom;

/** An element of the mirror before and after a change; null means that it is not in the map. */
final class Difference {
    final Name name;
    final Row before;
    final Row after;

    Difference(Name name, Row before, Row after) {
        this.name = name;
        this.before = before;
        this.after = after;
    }
}
