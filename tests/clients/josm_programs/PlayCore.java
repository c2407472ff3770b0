// License: GPL v2 or later. For details, see the file LICENSE.
package org.openstreetmap.josm.plugins.maproom;

import java.io.BufferedReader;
import java.io.InputStreamReader;
import java.io.PrintStream;
import java.nio.charset.StandardCharsets;
import java.util.ArrayList;
import java.util.LinkedHashMap;
import java.util.List;
import java.util.Map;

/**
 * Plays a text of tests/texts/clients over the plugin's core, as tests/clients/client_cores/play.js does over that of
 * maproom.js.
 */
public final class PlayCore {
    private final PrintStream out = new PrintStream(System.out, true, StandardCharsets.UTF_8);
    private final List<String> events = new ArrayList<>();
    private final RoomCore core = new RoomCore("paris", "anna", 2, 3, new Ear());
    private long asked = 2;

    private PlayCore() {
        // only main
    }

    public static void main(String[] given) throws Exception {
        new PlayCore().play(new BufferedReader(new InputStreamReader(System.in, StandardCharsets.UTF_8)));
    }

    private void play(BufferedReader lines) throws Exception {
        for (String line = lines.readLine(); line != null; line = lines.readLine()) {
            List<String> texts = new ArrayList<>();
            try {
                texts.addAll(reports(line));
                texts.addAll(core.more());
            } catch (RoomCore.OutOfStep fault) {
                texts.add("out of step");
            } catch (RoomCore.HelloRefused fault) {
                texts.add("refused " + Json.write(fault.no));
            }
            events.forEach(out::println);
            events.clear();
            texts.forEach(out::println);
            out.println();
        }
    }

    /** Does a line of the text. Returns what it asks about the core. */
    @SuppressWarnings("unchecked")
    private List<String> reports(String line) {
        String[] parts = line.split(" ", 2);
        List<String> texts = new ArrayList<>();
        switch (parts[0]) {
        case "connect": core.begin(); break;
        case "lost": core.end(); break;
        case "ask": ask((Map<String, Object>) Json.read(parts[1])); break;
        case "probe":
            asked++; // it takes an id, if it asks anything
            core.probe();
            break;
        case "pending": texts.add(String.valueOf(core.pending())); break;
        case "mirror":
            texts.add("entry " + core.seq());
            core.elements().values().forEach(row -> texts.add("element " + row));
            break;
        default: core.take(RoomCore.read(line)).forEach(Runnable::run);
        }
        return texts;
    }

    private void ask(Map<String, Object> message) {
        long number = asked++;
        core.ask(message, entry -> { }, answer -> out.println("answer " + number + " "
                + (answer.ok != null ? "{\"ok\":" + Json.write(answer.ok) : "{\"no\":" + Json.write(answer.no))
                + "}"));
    }

    private final class Ear implements RoomCore.Listener {
        @Override
        public void changed(long seq, String by, List<Difference> rows) {
            Map<String, Object> event = new LinkedHashMap<>();
            event.put("seq", seq);
            event.put("by", by);
            event.put("rows", inWords(rows));
            events.add(Json.write(event));
        }

        @Override
        public void reset(long seq, Boolean restarted, List<Difference> rows) {
            Map<String, Object> event = new LinkedHashMap<>();
            event.put("seq", seq);
            event.put("reset", true);
            event.put("restarted", restarted);
            event.put("rows", inWords(rows));
            events.add(Json.write(event));
        }

        private List<Object> inWords(List<Difference> rows) {
            List<Object> all = new ArrayList<>();
            for (Difference row : rows) {
                Map<String, Object> each = new LinkedHashMap<>();
                each.put("el", row.name.toString());
                each.put("before", row.before == null ? null : row.before.fields());
                each.put("after", row.after == null ? null : row.after.fields());
                all.add(each);
            }
            return all;
        }
    }
}
