// License: GPL v2 or later. For details, see the file LICENSE.
package org.openstreetmap.josm.plugins.maproom;

import java.util.ArrayList;
import java.util.Arrays;
import java.util.Collection;
import java.util.Collections;
import java.util.List;
import java.util.Random;
import java.util.function.Consumer;
import java.util.stream.Collectors;

import org.openstreetmap.josm.actions.CombineWayAction;
import org.openstreetmap.josm.actions.MergeNodesAction;
import org.openstreetmap.josm.actions.ReverseWayAction;
import org.openstreetmap.josm.command.AddCommand;
import org.openstreetmap.josm.command.ChangeMembersCommand;
import org.openstreetmap.josm.command.ChangeNodesCommand;
import org.openstreetmap.josm.command.ChangePropertyCommand;
import org.openstreetmap.josm.command.Command;
import org.openstreetmap.josm.command.DeleteCommand;
import org.openstreetmap.josm.command.MoveCommand;
import org.openstreetmap.josm.command.RotateCommand;
import org.openstreetmap.josm.command.SequenceCommand;
import org.openstreetmap.josm.command.SplitWayCommand;
import org.openstreetmap.josm.data.UndoRedoHandler;
import org.openstreetmap.josm.data.coor.EastNorth;
import org.openstreetmap.josm.data.coor.LatLon;
import org.openstreetmap.josm.data.osm.DataSet;
import org.openstreetmap.josm.data.osm.Node;
import org.openstreetmap.josm.data.osm.OsmPrimitive;
import org.openstreetmap.josm.data.osm.Relation;
import org.openstreetmap.josm.data.osm.RelationMember;
import org.openstreetmap.josm.data.osm.Way;
import org.openstreetmap.josm.data.projection.ProjectionRegistry;
import org.openstreetmap.josm.tools.Pair;

/** Random commands of JOSM on the first elements of a data set, and JOSM's undo and redo. */
final class RandomCommands {
    /** How many elements of each kind are worked on, so that mappers often meet. */
    private static final int HOT = 25;

    private final DataSet data;
    private final Random random;
    private final Consumer<String> count;

    /**
     * Makes commands for a data set.
     * @param count hears the kind of each command
     */
    RandomCommands(DataSet data, Random random, Consumer<String> count) {
        this.data = data;
        this.random = random;
        this.count = count;
    }

    /** Does a command, or undoes or redoes some. */
    void step() throws Exception {
        switch (random.nextInt(25)) {
        case 0: case 1: addNode(); break;
        case 2: case 3: case 4: drawWay(); break;
        case 5: case 6: tag(); break;
        case 7: case 8: move(); break;
        case 9: delete(); break;
        case 10: split(); break;
        case 11: combine(); break;
        case 12: merge(); break;
        case 13: insert(); break;
        case 14: relation(); break;
        case 15: members(); break;
        case 16: reverse(); break;
        case 17: rotate(); break;
        case 18: case 19: case 20: case 21: undoOrRedo(); break;
        case 22: nothing(); break;
        default: plain();
        }
    }

    private void add(String what, Command command) {
        if (command == null) return;
        count.accept(what);
        UndoRedoHandler.getInstance().add(command);
    }

    private <T extends OsmPrimitive> List<T> some(Collection<T> from, int count) {
        List<T> hot = from.stream().filter(each -> !each.isDeleted()).sorted().limit(HOT).collect(Collectors.toList());
        Collections.shuffle(hot, random);
        return hot.subList(0, Math.min(count, hot.size()));
    }

    private LatLon place() {
        double lat = 40 + random.nextInt(10000) / 1e6 + random.nextDouble() / 1e6;
        return new LatLon(lat, -30 + random.nextInt(10000) / 1e6);
    }

    private Node newNode() {
        return new Node(place());
    }

    private void addNode() {
        add("add node", new AddCommand(data, newNode()));
    }

    /** Adds many nodes by one command. */
    void addMany(int number) {
        List<Command> all = new ArrayList<>();
        for (int i = 0; i < number; i++) all.add(new AddCommand(data, newNode()));
        add("add many", new SequenceCommand("add many", all));
    }

    private void drawWay() {
        List<Command> all = new ArrayList<>();
        List<Node> nodes = new ArrayList<>(some(data.getNodes(), random.nextInt(3)));
        for (int i = random.nextInt(4) + 2 - Math.min(2, nodes.size()); i > 0; i--) {
            Node node = newNode();
            nodes.add(node);
            all.add(new AddCommand(data, node));
        }
        if (nodes.size() < 2) return;
        if (nodes.size() > 3 && random.nextBoolean()) nodes.add(nodes.get(0));
        Way way = new Way();
        way.setNodes(nodes);
        way.put("highway", "path");
        all.add(new AddCommand(data, way));
        add("draw way", new SequenceCommand("draw", all));
    }

    private void tag() {
        List<OsmPrimitive> targets = some(new ArrayList<>(data.allPrimitives()), 2);
        if (targets.isEmpty()) return;
        String value = random.nextInt(4) == 0 ? null : "v" + random.nextInt(3);
        add("tag", new ChangePropertyCommand(targets, "k" + random.nextInt(3), value));
    }

    private void move() {
        List<OsmPrimitive> targets = new ArrayList<>(some(data.getNodes(), 1 + random.nextInt(2)));
        if (random.nextBoolean()) targets.addAll(some(data.getWays(), 1));
        if (targets.isEmpty()) return;
        MoveCommand command = new MoveCommand(targets, random.nextInt(100) - 50, random.nextInt(100) - 50);
        add("move", command);
        // JOSM does so in a drag, without any event of its list.
        if (random.nextBoolean()) command.moveAgain(random.nextInt(10), 3);
    }

    private void delete() {
        List<OsmPrimitive> targets = new ArrayList<>();
        if (random.nextBoolean()) targets.addAll(some(data.getWays(), 1 + random.nextInt(2)));
        else targets.addAll(some(data.getNodes(), 2));
        if (random.nextInt(3) == 0) targets.addAll(some(data.getRelations(), 1));
        if (!targets.isEmpty()) add("delete", DeleteCommand.delete(targets, random.nextBoolean(), true));
    }

    private void split() {
        for (Way way : some(data.getWays(), 5)) {
            if (way.getNodesCount() < 3 || way.isClosed()) continue;
            Node node = way.getNode(1 + random.nextInt(way.getNodesCount() - 2));
            if (way.isFirstLastNode(node) || Collections.frequency(way.getNodes(), node) > 1) continue;
            add("split", SplitWayCommand.split(way, List.of(node), List.of()));
            return;
        }
    }

    private void combine() throws Exception {
        for (Way way : some(data.getWays(), 10)) {
            if (way.isClosed() || way.getNodesCount() < 2) continue;
            for (Way other : way.lastNode().getParentWays()) {
                if (other == way || other.isClosed() || !other.isFirstLastNode(way.lastNode())) continue;
                if (!other.getKeys().equals(way.getKeys())) continue;
                if (!other.getReferrers().equals(way.getReferrers())) continue;
                Pair<Way, Command> made = CombineWayAction.combineWaysWorker(Arrays.asList(way, other));
                if (made != null) add("combine", made.b);
                return;
            }
        }
    }

    private void merge() {
        List<Node> nodes = new ArrayList<>(some(data.getNodes(), 2));
        if (nodes.size() < 2) return;
        if (!nodes.get(0).getKeys().equals(nodes.get(1).getKeys())) return;
        boolean isInRelation = nodes.stream().flatMap(each -> each.getReferrers().stream())
                .anyMatch(parent -> parent instanceof Relation);
        if (isInRelation) return; // JOSM asks in a dialog
        add("merge", MergeNodesAction.mergeNodes(nodes, nodes.get(0), nodes.get(1)));
    }

    private void insert() {
        for (Way way : some(data.getWays(), 1)) {
            Node node = newNode();
            List<Node> nodes = new ArrayList<>(way.getNodes());
            nodes.add(1, node);
            Command change = new ChangeNodesCommand(data, way, nodes);
            add("insert", new SequenceCommand("insert", Arrays.asList(new AddCommand(data, node), change)));
        }
    }

    private void relation() {
        Relation relation = new Relation();
        relation.put("type", "site");
        for (Way each : some(data.getWays(), 2)) relation.addMember(new RelationMember("part", each));
        for (Relation each : some(data.getRelations(), 1)) relation.addMember(new RelationMember("", each));
        for (Node each : some(data.getNodes(), 1)) relation.addMember(new RelationMember("entrance", each));
        add("relation", new AddCommand(data, relation));
    }

    private void members() {
        for (Relation relation : some(data.getRelations(), 1)) {
            List<RelationMember> members = new ArrayList<>(relation.getMembers());
            Collections.shuffle(members, random);
            if (members.size() > 3) members.remove(0);
            for (Way each : some(data.getWays(), 1)) members.add(new RelationMember("more", each));
            if (random.nextInt(5) == 0) members.add(new RelationMember("self", relation));
            add("members", new ChangeMembersCommand(data, relation, members));
        }
    }

    private void reverse() throws Exception {
        for (Way way : some(data.getWays(), 1)) {
            add("reverse", ReverseWayAction.reverseWay(way).getAsSequenceCommand());
        }
    }

    private void rotate() {
        for (Way way : some(data.getWays(), 1)) {
            if (way.getNodesCount() < 2) continue;
            EastNorth pivot = ProjectionRegistry.getProjection().latlon2eastNorth(new LatLon(40, -30));
            RotateCommand command = new RotateCommand(List.of(way), pivot);
            add("rotate", command);
            command.handleEvent(pivot.add(random.nextInt(100), random.nextInt(100)));
        }
    }

    private void undoOrRedo() {
        UndoRedoHandler handler = UndoRedoHandler.getInstance();
        int times = 1 + random.nextInt(3);
        if (random.nextInt(3) > 0 && handler.hasUndoCommands()) {
            count.accept("undo");
            handler.undo(Math.min(times, handler.getUndoCommands().size()));
        } else if (handler.hasRedoCommands()) {
            count.accept("redo");
            handler.redo(Math.min(times, handler.getRedoCommands().size()));
        }
    }

    /** Does a command that changes nothing. JOSM then forgets what it could redo, and the room does not. */
    private void nothing() {
        List<OsmPrimitive> targets = new ArrayList<>(some(data.getNodes(), 1));
        if (!targets.isEmpty()) add("nothing", new MoveCommand(targets, 0, 0));
    }

    /** Changes the data set without a command, as some plugins do. */
    private void plain() {
        for (OsmPrimitive each : some(new ArrayList<>(data.allPrimitives()), 1)) {
            count.accept("plain");
            each.put("note", "n" + random.nextInt(5));
        }
    }
}
