// License: GPL v2 or later. For details, see the file LICENSE.
package org.openstreetmap.josm.plugins.maproom;

import java.util.Map;

/** The room's answer to a message: one of both is null. */
final class Answer {
    final Map<?, ?> ok;
    final Map<?, ?> no;

    Answer(Map<?, ?> ok, Map<?, ?> no) {
        this.ok = ok;
        this.no = no;
    }

    /** Returns the number of the entry that an accepted change made. */
    long seq() {
        return (Long) ok.get("seq");
    }

    /** Returns the number of the entry that a refusal names. */
    long with() {
        return (Long) no.get("with");
    }

    /** Returns the reason of a refusal, or an empty text if the room accepted the message. */
    String why() {
        return no == null ? "" : String.valueOf(no.get("why"));
    }
}
