// License: GPL v2 or later. For details, see the file LICENSE.
package org.openstreetmap.josm.plugins.maproom;

import java.io.BufferedReader;
import java.io.InputStreamReader;
import java.nio.charset.StandardCharsets;
import java.util.List;

import javax.swing.SwingUtilities;

import org.openstreetmap.josm.command.ChangeNodesCommand;
import org.openstreetmap.josm.command.ChangePropertyCommand;
import org.openstreetmap.josm.command.Command;
import org.openstreetmap.josm.command.MoveCommand;
import org.openstreetmap.josm.data.UndoRedoHandler;
import org.openstreetmap.josm.data.osm.DataSet;
import org.openstreetmap.josm.data.osm.Node;
import org.openstreetmap.josm.data.osm.OsmPrimitive;
import org.openstreetmap.josm.data.osm.Way;

/**
 * A JOSM without windows, whose mapper does what standard input says. It prints `there` when it has joined, and what
 * it warns of. A line is one of these:
 *
 * <ul>
 * <li>`tag NAME KEY VALUE`: gives an element a tag
 * <li>`move NAME`: moves a node
 * <li>`shorten NAME`: takes the last node out of a way
 * <li>`rest`: waits until nothing is under way, and prints `rest` with how many commands can be undone
 * <li>`show NAME`: prints what the data set shows of an element
 * </ul>
 *
 * <p>Arguments: the server, the room, the name.
 */
public final class ToldMapper implements LiveSession.Watcher {
    private final DataSet data = new DataSet();
    private LiveSession session;

    private ToldMapper() {
        // made by main
    }

    public static void main(String[] given) throws Exception {
        Headless.setUp();
        ToldMapper mapper = new ToldMapper();
        SwingUtilities.invokeAndWait(() -> {
            mapper.session = new LiveSession(mapper.data, given[0], given[1], given[2], () -> false,
                    SwingUtilities::invokeLater, mapper);
            mapper.session.open();
        });
        BufferedReader lines = new BufferedReader(new InputStreamReader(System.in, StandardCharsets.UTF_8));
        for (String line = lines.readLine(); line != null; line = lines.readLine()) {
            String[] words = line.split(" ");
            if ("rest".equals(words[0])) mapper.rest();
            else SwingUtilities.invokeAndWait(() -> mapper.act(words));
        }
        System.exit(0);
    }

    private void rest() throws Exception {
        boolean[] isAtRest = {false};
        while (!isAtRest[0]) {
            SwingUtilities.invokeAndWait(() -> isAtRest[0] = session.isAtRest());
            if (!isAtRest[0]) Thread.sleep(10);
        }
        System.out.println("rest " + UndoRedoHandler.getInstance().getUndoCommands().size());
    }

    private void act(String[] words) {
        OsmPrimitive primitive = session.primitives.get(Name.of(words[1]));
        switch (words[0]) {
        case "tag":
            add(new ChangePropertyCommand(List.of(primitive), words[2], words[3]));
            break;
        case "move":
            add(new MoveCommand(primitive, 10, 10));
            break;
        case "shorten":
            List<Node> nodes = ((Way) primitive).getNodes();
            add(new ChangeNodesCommand(data, (Way) primitive,
                    nodes.subList(0, nodes.size() - 1)));
            break;
        default:
            System.out.println(session.primitives.map().get(Name.of(words[1])));
        }
    }

    private static void add(Command command) {
        UndoRedoHandler.getInstance().add(command);
    }

    @Override
    public void entered() {
        System.out.println("there");
    }

    @Override
    public void warn(String text) {
        System.out.println(text);
    }

    @Override
    public void changed() {
        // nothing
    }

    @Override
    public void ended(String why) {
        System.out.println(why);
    }
}
