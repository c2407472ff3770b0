// License: GPL v2 or later. For details, see the file LICENSE.
package org.openstreetmap.josm.plugins.maproom;

import java.util.ArrayDeque;
import java.util.ArrayList;
import java.util.Collection;
import java.util.Collections;
import java.util.Deque;
import java.util.HashMap;
import java.util.List;
import java.util.Map;
import java.util.TreeMap;
import java.util.function.Function;
import java.util.stream.Collectors;

import org.openstreetmap.josm.data.osm.OsmPrimitive;

/** Who changed what since the room was joined, and refusals in words. */
final class History {
    /** How many changes the list has. */
    private static final int MOST_CHANGES = 200;

    /** An entry of the room, for the list of changes. */
    static final class Entry {
        final long seq;
        final String author;
        final long time = System.currentTimeMillis();
        final String text;
        final List<Name> names;

        Entry(long seq, String author, String text, List<Name> names) {
            this.seq = seq;
            this.author = author;
            this.text = text;
            this.names = names;
        }
    }

    private final Function<Name, Row> mirror;
    private final Primitives primitives;
    private final Map<Name, Entry> last = new HashMap<>();
    private final Map<Long, String> authors = new HashMap<>();
    private final Map<String, Long> people = new TreeMap<>();
    private final Deque<Entry> entries = new ArrayDeque<>();

    /** Makes an empty history. The mirror and the primitives have the tags that words name elements by. */
    History(Function<Name, Row> mirror, Primitives primitives) {
        this.mirror = mirror;
        this.primitives = primitives;
    }

    /** Adds an entry of the room. */
    void add(long seq, String author, List<Difference> rows) {
        List<Name> names = rows.stream().map(row -> row.name).collect(Collectors.toList());
        Entry entry = new Entry(seq, author, inWords(rows), names);
        authors.put(seq, author);
        people.put(author, entry.time);
        names.forEach(name -> last.put(name, entry));
        entries.addFirst(entry);
        if (entries.size() > MOST_CHANGES) entries.removeLast();
    }

    /** Forgets all entries, because another run of the server counts its own. */
    void forget() {
        authors.clear();
        last.clear();
        entries.clear();
    }

    /** Returns the entries, the latest first. */
    Collection<Entry> entries() {
        return Collections.unmodifiableCollection(entries);
    }

    /** Returns when each author changed something last. A room does not report who is only looking. */
    Map<String, Long> people() {
        return Collections.unmodifiableMap(people);
    }

    /** Returns the number of the last entry that changed an element, or `otherwise`. */
    long lastOf(Name name, long otherwise) {
        Entry entry = last.get(name);
        return entry == null ? otherwise : entry.seq;
    }

    // ---- Words.

    /** Returns the sentence that something was refused, and who changed the element last. */
    String refused(String what, Map<?, ?> no) {
        Object element = no.containsKey("at") ? no.get("at") : no.get("el");
        if ("in_use".equals(no.get("why"))) element = no.get("by");
        Entry entry = element instanceof String ? last.get(Name.of((String) element)) : null;
        boolean isNamed = no.containsKey("with") && authors.containsKey(no.get("with"));
        String who = entry == null || isNamed ? "" : ". " + entry.author + " changed " + describe((String) element)
                + " last (entry " + entry.seq + ")";
        return what + " was refused: " + inWords(no) + who + ".";
    }

    /** Returns a refusal in words. */
    String inWords(Map<?, ?> no) {
        return Reasons.inWords(no, this::describe, authors::get);
    }

    /** Returns words for an element, such as `way 12 (Lindenweg)`, or null if the text is no name. */
    String describe(String text) {
        Name name;
        try {
            name = Name.of(text);
        } catch (IllegalArgumentException e) {
            return null;
        }
        Map<String, String> tags = tagsOf(name);
        String kind = name.kind == 'n' ? "node" : name.kind == 'w' ? "way" : "relation";
        if (name.id > 0) kind += " " + name.id; // the number of a new element says nothing to a mapper
        if (tags.isEmpty()) return name.id > 0 ? kind : "a new " + kind;
        Map.Entry<String, String> first = tags.entrySet().iterator().next();
        return kind + " (" + tags.getOrDefault("name", first.getKey() + "=" + first.getValue()) + ")";
    }

    /** Returns the tags of an element in the room or, if it is not there any more, those that JOSM had last. */
    private Map<String, String> tagsOf(Name name) {
        Row row = mirror.apply(name);
        OsmPrimitive primitive = primitives.get(name);
        if (row != null) return row.tags;
        return primitive == null ? Map.of() : new TreeMap<>(primitive.getKeys());
    }

    private String inWords(List<Difference> rows) {
        if (rows.size() == 1) {
            Difference row = rows.get(0);
            return verb(row) + " " + describe(row.name.toString());
        }
        long made = rows.stream().filter(row -> row.before == null).count();
        long gone = rows.stream().filter(row -> row.after == null).count();
        long other = rows.size() - made - gone;
        List<String> parts = new ArrayList<>();
        if (made > 0) parts.add("created " + made);
        if (other > 0) parts.add("changed " + other);
        if (gone > 0) parts.add("deleted " + gone);
        return String.join(", ", parts) + " elements";
    }

    private static String verb(Difference row) {
        if (row.before == null) return "created";
        if (row.after == null) return "deleted";
        if (row.before.hasSameRest(row.after)) return "tagged";
        return row.name.kind == 'n' ? "moved" : "reshaped";
    }
}
