// License: GPL v2 or later. For details, see the file LICENSE.
package org.openstreetmap.josm.plugins.maproom;

import java.lang.management.ManagementFactory;

import javax.swing.SwingUtilities;

import org.openstreetmap.josm.data.osm.DataSet;
import org.openstreetmap.josm.data.osm.event.AbstractDatasetChangedEvent;
import org.openstreetmap.josm.data.osm.event.DataSetListenerAdapter;
import org.openstreetmap.josm.data.osm.event.TagsChangedEvent;

/**
 * A JOSM without windows that joins a room. It prints how long that takes, what it costs the event thread, and how
 * many primitives there are. Then it prints each value of a tag `k` that reaches the data set, and when, in
 * milliseconds since 1970. If it cannot join, it prints why.
 *
 * <p>Arguments: the server, the room, the name.
 */
public final class Measure {
    private static long begin;

    private Measure() {
        // only main
    }

    public static void main(String[] given) throws Exception {
        Headless.setUp();
        DataSet data = new DataSet();
        begin = System.nanoTime();
        SwingUtilities.invokeAndWait(() -> new LiveSession(data, given[0], given[1], given[2], () -> false,
                SwingUtilities::invokeLater, new Ear(data)).open());
        Thread.sleep(Long.MAX_VALUE);
    }

    private static final class Ear implements LiveSession.Watcher {
        private final DataSet data;

        Ear(DataSet data) {
            this.data = data;
        }

        @Override
        public void entered() {
            long joined = (System.nanoTime() - begin) / 1_000_000;
            long ofEvents = ManagementFactory.getThreadMXBean().getCurrentThreadCpuTime() / 1_000_000;
            System.out.println("joined " + joined + " " + ofEvents + " " + data.allPrimitives().size());
            data.addDataSetListener(new DataSetListenerAdapter(Ear::hear));
        }

        private static void hear(AbstractDatasetChangedEvent event) {
            long now = System.currentTimeMillis();
            if (!(event instanceof TagsChangedEvent)) return;
            System.out.println("tag " + ((TagsChangedEvent) event).getPrimitive().get("k") + " " + now);
        }

        @Override
        public void warn(String text) {
            System.out.println(text);
        }

        @Override
        public void changed() {
            // nothing
        }

        @Override
        public void ended(String why) {
            System.out.println(why);
            System.exit(1);
        }
    }
}
