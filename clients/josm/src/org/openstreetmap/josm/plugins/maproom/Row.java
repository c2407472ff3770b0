// License: GPL v2 or later. For details, see the file LICENSE.
package org.openstreetmap.josm.plugins.maproom;

import java.util.ArrayList;
import java.util.Arrays;
import java.util.Collections;
import java.util.LinkedHashMap;
import java.util.List;
import java.util.Map;
import java.util.TreeMap;
import java.util.function.Predicate;

/** An element as the room has it. It does not change. */
final class Row {
    /** How many units a degree has. */
    static final double UNITS = 1e7;

    private static final long[] NO_IDS = {};

    final Name name;
    final Map<String, String> tags;
    /** The position of a node in ten-millionths of a degree. */
    final long lat;
    final long lon;
    /** The list of a way, or null. */
    final long[] nodes;
    /** The members of a relation, or null, and their roles. */
    final List<Name> members;
    final List<String> roles;

    private Row(Name name, Map<String, String> tags, long lat, long lon, long[] nodes, List<Name> members,
            List<String> roles) {
        this.name = name;
        this.tags = tags;
        this.lat = lat;
        this.lon = lon;
        this.nodes = nodes;
        this.members = members;
        this.roles = roles;
    }

    static Row node(Name name, Map<String, String> tags, long lat, long lon) {
        return new Row(name, tags, lat, lon, null, null, null);
    }

    static Row way(Name name, Map<String, String> tags, long[] nodes) {
        return new Row(name, tags, 0, 0, nodes, null, null);
    }

    static Row relation(Name name, Map<String, String> tags, List<Name> members, List<String> roles) {
        return new Row(name, tags, 0, 0, null, members, roles);
    }

    /** Returns the same element with other tags. */
    Row withTags(Map<String, String> given) {
        return new Row(name, given, lat, lon, nodes, members, roles);
    }

    /** Returns the same node at another position. */
    Row at(long newLat, long newLon) {
        return new Row(name, tags, newLat, newLon, nodes, members, roles);
    }

    /** Returns the same content under another name. */
    Row named(Name other) {
        return new Row(other, tags, lat, lon, nodes, members, roles);
    }

    /**
     * Reads an element of the protocol.
     * @throws RuntimeException if it is none
     */
    static Row read(Map<?, ?> element) {
        Name name = Name.of((String) element.get("el"));
        Map<String, String> tags = readTags((Map<?, ?>) element.get("tags"));
        if (name.kind == 'n') {
            return node(name, tags, units((String) element.get("lat")), units((String) element.get("lon")));
        }
        if (name.kind == 'w') {
            List<?> list = (List<?>) element.get("nodes");
            return way(name, tags, list.isEmpty() ? NO_IDS : list.stream().mapToLong(each -> (Long) each).toArray());
        }
        List<Name> members = new ArrayList<>();
        List<String> roles = new ArrayList<>();
        for (Object each : (List<?>) element.get("members")) {
            members.add(Name.of((String) ((List<?>) each).get(0)));
            roles.add((String) ((List<?>) each).get(1));
        }
        return relation(name, tags, members, roles);
    }

    private static Map<String, String> readTags(Map<?, ?> given) {
        if (given.isEmpty()) return Collections.emptyMap();
        Map<String, String> tags = new TreeMap<>();
        given.forEach((key, value) -> tags.put((String) key, (String) value));
        return tags;
    }

    /** Reads a coordinate, which has up to seven decimals. */
    static long units(String text) {
        boolean isNegative = text.startsWith("-");
        int point = text.indexOf('.');
        String whole = text.substring(isNegative ? 1 : 0, point < 0 ? text.length() : point);
        String decimals = point < 0 ? "" : text.substring(point + 1);
        if (decimals.length() > 7) throw new IllegalArgumentException("no coordinate: " + text);
        long units = Long.parseLong(whole + decimals + "0000000".substring(decimals.length()));
        return isNegative ? -units : units;
    }

    /** Writes a coordinate. */
    static String degrees(long units) {
        long size = Math.abs(units);
        return String.format("%s%d.%07d", units < 0 ? "-" : "", size / 10_000_000, size % 10_000_000);
    }

    /** Returns whether a test is true of each element that this element refers to. */
    boolean allReferences(Predicate<Name> test) {
        if (nodes != null) return Arrays.stream(nodes).allMatch(id -> test.test(new Name('n', id)));
        return members == null || members.stream().allMatch(test);
    }

    /** Returns whether this element refers to an element. */
    boolean refersTo(Name other) {
        return !allReferences(name -> !name.equals(other));
    }

    /** Returns the members as the protocol writes them. */
    List<Object> pairs() {
        List<Object> pairs = new ArrayList<>();
        for (int i = 0; i < members.size(); i++) pairs.add(List.of(members.get(i).toString(), roles.get(i)));
        return pairs;
    }

    /** Returns the list of a way as the protocol writes it. */
    List<Object> nodeList() {
        List<Object> list = new ArrayList<>(nodes.length);
        for (long id : nodes) list.add(id);
        return list;
    }

    /** Returns the fields that an action `create` or a welcome has. */
    Map<String, Object> fields() {
        Map<String, Object> fields = new LinkedHashMap<>();
        fields.put("el", name.toString());
        if (nodes != null) {
            fields.put("nodes", nodeList());
        } else if (members != null) {
            fields.put("members", pairs());
        } else {
            fields.put("lat", degrees(lat));
            fields.put("lon", degrees(lon));
        }
        fields.put("tags", new TreeMap<>(tags));
        return fields;
    }

    /** Returns whether two elements of one kind have the same position or list. */
    boolean hasSameRest(Row other) {
        if (nodes != null) return Arrays.equals(nodes, other.nodes);
        if (members != null) return members.equals(other.members) && roles.equals(other.roles);
        return lat == other.lat && lon == other.lon;
    }

    @Override
    public boolean equals(Object given) {
        if (!(given instanceof Row)) return false;
        Row other = (Row) given;
        return name.equals(other.name) && tags.equals(other.tags) && hasSameRest(other);
    }

    @Override
    public int hashCode() {
        return name.hashCode();
    }

    @Override
    public String toString() {
        return Json.write(fields());
    }
}
