// License: GPL v2 or later. For details, see the file LICENSE.
package org.openstreetmap.josm.plugins.maproom;

import java.util.Map;
import java.util.function.Function;
import java.util.regex.Matcher;
import java.util.regex.Pattern;

/** The reasons of docs/PROTOCOL.md in words. A name in braces is that of a member of the refusal. */
final class Reasons {
    private static final Pattern MEMBER = Pattern.compile("\\{(\\w+)\\}");

    private static final Map<String, String> WORDS = Map.ofEntries(
            Map.entry("unknown_do", "the server is older than this plugin"),
            Map.entry("bad_field", "the room cannot hold {field} of {el}: a text has at most 255 characters, and a "
                    + "coordinate lies in the world"),
            Map.entry("no_room", "the server has no such room"),
            Map.entry("wrong_name", "you are logged in as {name}: join under that name"),
            Map.entry("no_name", "the server was not told who you are: log in, and ask its operator whether your "
                    + "login has a name"),
            Map.entry("repeat", "another program uses your name in the room"),
            Map.entry("full", "the journal of the room is full"),
            Map.entry("nothing_to_undo", "there is nothing to undo"),
            Map.entry("no_such", "the room does not know this change any more"),
            Map.entry("not_yours", "the change is another mapper's"),
            Map.entry("not_standing", "the change is undone already"),
            Map.entry("conflict", "entry {with} also changed {at}, and has to be undone first"),
            Map.entry("nothing_to_redo", "there is nothing to redo"),
            Map.entry("wrong_kind", "{el} is of the wrong kind for this"),
            Map.entry("present", "{el} is there already"),
            Map.entry("absent", "{el} is not there any more"),
            Map.entry("out_of_range", "{el} would leave the world"),
            Map.entry("too_few", "{el} would have fewer than 2 nodes"),
            Map.entry("too_many", "{el} would have too many nodes, members or tags"),
            Map.entry("in_use", "{by} uses {el}"),
            Map.entry("nothing", "the map would not change"),
            Map.entry("changed", "entry {with} changed {el} in the same moment"),
            Map.entry("memory", "the server is out of memory"),
            // These are the plugin's own reasons.
            Map.entry("clash", "entry {with} changed {el} in the same moment"),
            Map.entry("incomplete", "{el} is incomplete in JOSM"),
            Map.entry("no_position", "{el} has no position"),
            Map.entry("purge", "{el} cannot be purged in a room: delete it instead"),
            Map.entry("too_large", "it takes {count} actions, and a room takes 10,000: do it in smaller parts"),
            Map.entry("built_on", "it was built on a change that the room refused"),
            Map.entry("unknown", "the connection broke, and the server was started anew: look at the map"),
            Map.entry("not_sent", "the server was started anew before it was sent"));

    private Reasons() {
        // only functions
    }

    /**
     * Returns a refusal in words.
     * @param describe gives words for an element's name, or null
     * @param author gives the author of an entry, or null
     */
    static String inWords(Map<?, ?> no, Function<String, String> describe, Function<Long, String> author) {
        String words = WORDS.get(String.valueOf(no.get("why")));
        if (words == null) return Json.write(no);
        Matcher found = MEMBER.matcher(words);
        StringBuilder made = new StringBuilder();
        while (found.find()) {
            Object value = no.get(found.group(1));
            String text = String.valueOf(value);
            String better = value instanceof String ? describe.apply(text) : null;
            if (value instanceof Long && "with".equals(found.group(1)) && author.apply((Long) value) != null) {
                better = text + " of " + author.apply((Long) value);
            }
            found.appendReplacement(made, Matcher.quoteReplacement(better != null ? better : text));
        }
        return found.appendTail(made).toString();
    }
}
