// License: GPL v2 or later. For details, see the file LICENSE.
package org.openstreetmap.josm.plugins.maproom;

import java.awt.HeadlessException;
import java.io.BufferedReader;
import java.io.IOException;
import java.io.InputStreamReader;
import java.io.PrintWriter;
import java.nio.charset.StandardCharsets;
import java.util.ArrayList;
import java.util.Collections;
import java.util.List;
import java.util.Map;
import java.util.Random;
import java.util.TreeMap;
import java.util.function.Function;
import java.util.stream.Collectors;
import java.util.stream.Stream;

import javax.swing.SwingUtilities;

import org.openstreetmap.josm.command.Command;
import org.openstreetmap.josm.data.UndoRedoHandler;
import org.openstreetmap.josm.data.osm.DataSet;
import org.openstreetmap.josm.data.osm.OsmPrimitive;

/**
 * A JOSM without windows, whose mapper does random commands in a room. It prints `there` when it has joined, and
 * begins after a line. It prints `done` after its commands. For each line `rest` on standard input, it waits until
 * nothing is under way, and prints the number of its last entry. After another line it writes its data set, its mirror
 * and its lists of commands.
 *
 * <p>Arguments: the server, the room, the name, a seed, the number of commands, the file for the maps.
 */
public final class RandomMapper {
    private final DataSet data = new DataSet();
    private final Random random;
    private final RandomCommands commands;
    private final Map<String, Long> counts = new TreeMap<>();
    private final List<String> faults = Collections.synchronizedList(new ArrayList<>());
    private volatile boolean isInGesture;
    private volatile boolean isThere;
    private volatile boolean isOver;
    private LiveSession session;

    private RandomMapper(long seed) {
        random = new Random(seed);
        commands = new RandomCommands(data, random, this::count);
    }

    public static void main(String[] given) throws Exception {
        Headless.setUp();
        RandomMapper mapper = new RandomMapper(Long.parseLong(given[3]));
        Thread.setDefaultUncaughtExceptionHandler((thread, fault) -> mapper.fault(fault));
        mapper.run(given[0], given[1], given[2], Integer.parseInt(given[4]), given[5]);
        System.exit(mapper.faults.isEmpty() ? 0 : 1);
    }

    /** A fault in a call that the room's message led to. The session has to go on after it. */
    private static final class PlannedFault extends RuntimeException {
    }

    private static boolean isOfTheRoom(StackWalker.StackFrame frame) {
        return frame.getClassName().equals(RoomConnection.class.getName()) && frame.getMethodName().equals("call");
    }

    private void fault(Throwable fault) {
        if (fault instanceof PlannedFault) {
            count("planned fault");
            return;
        }
        faults.add(fault.toString());
        fault.printStackTrace();
    }

    private void run(String url, String room, String name, int steps, String file) throws Exception {
        SwingUtilities.invokeAndWait(() -> {
            session = new LiveSession(data, url, room, name, () -> isInGesture, SwingUtilities::invokeLater,
                    new Ear());
            session.open();
        });
        while (!isThere && !isOver) Thread.sleep(10);
        System.out.println("there");
        BufferedReader lines = new BufferedReader(new InputStreamReader(System.in, StandardCharsets.UTF_8));
        lines.readLine();
        int large = Integer.getInteger("maproom.large", 0);
        if (large > 0) SwingUtilities.invokeAndWait(() -> commands.addMany(large));
        for (int i = 0; i < steps && !isOver; i++) {
            if (random.nextInt(10) == 0) gesture();
            else SwingUtilities.invokeAndWait(this::step);
            if (random.nextInt(3) == 0) Thread.sleep(random.nextInt(20));
        }
        System.out.println("done");
        boolean[] isAtRest = {false};
        while ("rest".equals(lines.readLine())) {
            isAtRest[0] = false;
            for (int i = 0; i < 1200 && !isAtRest[0] && !isOver; i++) {
                SwingUtilities.invokeAndWait(() -> isAtRest[0] = session.isAtRest());
                if (!isAtRest[0]) Thread.sleep(50);
            }
            System.out.println(session.seq());
        }
        SwingUtilities.invokeAndWait(() -> write(file, isAtRest[0]));
    }

    private void write(String file, boolean isAtRest) {
        Map<String, Object> found = new TreeMap<>();
        found.put("rest", isAtRest);
        found.put("seq", session.seq());
        found.put("faults", new ArrayList<>(faults));
        found.put("modified", listOf(data.allPrimitives().stream().filter(OsmPrimitive::isModified), String::valueOf));
        found.put("shown", listOf(session.primitives.map().values().stream(), RandomMapper::fieldsOf));
        found.put("mirror", listOf(session.mirror().stream(), Row::fields));
        found.put("undos", listOf(UndoRedoHandler.getInstance().getUndoCommands().stream(), RandomMapper::entryOf));
        found.put("redos", listOf(UndoRedoHandler.getInstance().getRedoCommands().stream(), RandomMapper::entryOf));
        found.put("counts", new TreeMap<String, Object>(counts));
        try (PrintWriter out = new PrintWriter(file, StandardCharsets.UTF_8)) {
            out.println(Json.write(found));
        } catch (IOException e) {
            fault(e);
        }
    }

    private static <T> List<Object> listOf(Stream<T> from, Function<T, Object> form) {
        return from.map(form).collect(Collectors.toList());
    }

    private static Object fieldsOf(Row row) {
        return row == null ? null : row.fields();
    }

    /** Returns the entry of a command in JOSM's lists, or -1 for a command of JOSM's own. */
    private static Object entryOf(Command command) {
        return command instanceof RoomCommand ? ((RoomCommand) command).entry : -1L;
    }

    private void count(String what) {
        counts.merge(what, 1L, Long::sum);
    }

    /** Does some commands while news wait, as in a drag or in a dialog. */
    private void gesture() throws Exception {
        isInGesture = true;
        for (int i = random.nextInt(3); i >= 0; i--) {
            SwingUtilities.invokeAndWait(this::step);
            Thread.sleep(random.nextInt(40));
        }
        SwingUtilities.invokeAndWait(() -> {
            isInGesture = false;
            session.wake();
        });
    }

    private void step() {
        try {
            commands.step();
        } catch (HeadlessException e) {
            count("dialog"); // JOSM wants to ask something
        } catch (Exception e) {
            fault(e);
        }
    }

    private final class Ear implements LiveSession.Watcher {
        @Override
        public void entered() {
            isThere = true;
        }

        @Override
        public void warn(String text) {
            count("warning: " + text.replaceAll("^.*(was refused: |anew)", "$1")
                    .replaceAll("\\. (anna|bob|carl) changed .*", ".")
                    .replaceAll("(node|way|relation) -?[0-9]+( \\([^)]*\\))?", "$1")
                    .replaceAll("entry [0-9]+", "entry"));
        }

        @Override
        public void changed() {
            boolean isFault = Boolean.getBoolean("maproom.faults") && random.nextInt(20) == 0;
            if (isFault && StackWalker.getInstance().walk(frames -> frames.anyMatch(RandomMapper::isOfTheRoom))) {
                throw new PlannedFault();
            }
        }

        @Override
        public void ended(String why) {
            if (why != null) faults.add(why);
            isOver = true;
        }
    }
}
