// License: GPL v2 or later. For details, see the file LICENSE.
package org.openstreetmap.josm.plugins.maproom;

import java.util.Map;

/** The data set has something that a room cannot hold. */
final class Unfit extends Exception {
    /** The reason, in the form of a refusal of the room. */
    final transient Map<String, Object> no;

    Unfit(String why, Name name) {
        no = Map.of("why", why, "el", name.toString());
    }
}
