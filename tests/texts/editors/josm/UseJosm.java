// Uses JOSM's own classes, without its windows, on a bridge: java -cp /usr/share/josm/josm.jar UseJosm.java API
// Two mappers download, edit, upload and update. Each line that is printed tells what came of it.
import java.util.ArrayList;
import java.util.Arrays;
import java.util.Collections;
import java.util.List;
import org.openstreetmap.josm.actions.upload.*;
import org.openstreetmap.josm.data.*;
import org.openstreetmap.josm.data.coor.LatLon;
import org.openstreetmap.josm.data.osm.*;
import org.openstreetmap.josm.data.preferences.*;
import org.openstreetmap.josm.data.projection.*;
import org.openstreetmap.josm.gui.progress.*;
import org.openstreetmap.josm.io.*;
import org.openstreetmap.josm.spi.preferences.*;
import org.openstreetmap.josm.tools.*;

class UseJosm {
    static final Bounds BOX = new Bounds(39.99, -30.01, 40.01, -29.99);
    static final ProgressMonitor QUIET = NullProgressMonitor.INSTANCE;
    static final String MISMATCH = "Version mismatch: Provided (\\d+), server had: (\\d+) of (\\S+) (\\d+)";

    static DataSet download() throws Exception {
        return new BoundingBoxDownloader(BOX).parseOsm(QUIET);
    }

    static Node node(DataSet data, long id) {
        return (Node) data.getPrimitiveById(id, OsmPrimitiveType.NODE);
    }

    static Way way(DataSet data, long id) {
        return (Way) data.getPrimitiveById(id, OsmPrimitiveType.WAY);
    }

    static Way newWay(DataSet data, Node... nodes) {
        Way way = new Way();
        way.setNodes(Arrays.asList(nodes));
        data.addPrimitive(way);
        return way;
    }

    static void tag(OsmPrimitive element, String key, String value) {
        element.put(key, value);
        element.setModified(true);
    }

    static void upload(DataSet data, UploadStrategySpecification strategy) throws Exception {
        new OsmServerWriter().uploadOsm(strategy, new APIDataSet(data).getPrimitives(), new Changeset(), QUIET);
        data.cleanupDeletedPrimitives();
        data.allPrimitives().forEach(element -> element.setModified(false));
    }

    static void upload(DataSet data) throws Exception {
        upload(data, new UploadStrategySpecification());
    }

    // What "Update data" does. Gives the number of conflicts.
    static int update(DataSet data) throws Exception {
        DataSet present = download();
        MultiFetchServerObjectReader others = MultiFetchServerObjectReader.create(false);
        for (OsmPrimitive element : data.allPrimitives())
            if (!element.isNew() && present.getPrimitiveById(element) == null) others.append(element);
        DataSetMerger first = new DataSetMerger(data, present);
        first.merge();
        DataSetMerger second = new DataSetMerger(data, others.parseOsm(QUIET));
        second.merge();
        return first.getConflicts().size() + second.getConflicts().size();
    }

    // An upload that has to be refused, so that JOSM understands why.
    static void refused(String what, DataSet data) throws Exception {
        try {
            upload(data);
            System.out.println(what + ": not refused");
        } catch (OsmApiPrimitiveGoneException gone) {
            System.out.println(what + ": " + gone.getPrimitiveType() + " " + gone.getPrimitiveId() + " is gone");
        } catch (OsmApiException fault) {
            boolean isUnderstood = fault.getResponseCode() == 409 ? fault.getErrorHeader().matches(MISMATCH)
                : ExceptionUtil.parsePreconditionFailed(fault.getErrorHeader()) != null;
            System.out.println(what + ": " + fault.getResponseCode() + (isUnderstood ? " understood" : " not understood"));
        }
    }

    static void prepare(String url) {
        Logging.setLogLevel(Logging.LEVEL_ERROR);
        Config.setPreferencesInstance(new MemoryPreferences());
        Config.setBaseDirectoriesProvider(JosmBaseDirectories.getInstance());
        Config.setUrlsProvider(JosmUrls.getInstance());
        Config.getPref().put("osm-server.url", url);
        Config.getPref().put("osm-server.auth-method", "basic");
        Config.getPref().put("osm-server.username", "lina");
        Config.getPref().put("osm-server.password", "x");
        java.net.Authenticator.setDefault(org.openstreetmap.josm.io.auth.DefaultAuthenticator.getInstance());
        HttpClient.setFactory(Http1Client::new);
        ProjectionRegistry.setProjection(Projections.getProjectionByCode("EPSG:3857"));
    }

    public static void main(String[] arguments) throws Exception {
        prepare(arguments[0]);
        DataSet lina = download(), mika = download();
        System.out.println("downloaded " + lina.allPrimitives().size() + " elements");

        Node north = new Node(new LatLon(40.001, -30.001)), east = new Node(new LatLon(40.002, -30.001));
        lina.addPrimitive(north);
        lina.addPrimitive(east);
        Way path = newWay(lina, north, east, node(lina, 101));
        tag(path, "highway", "path");
        tag(way(lina, 11), "opening_hours", "Tu 10:00-12:00");
        for (long id : new long[] {102, 103}) {
            node(lina, id).setCoor(new LatLon(node(lina, id).lat() + 0.00001, node(lina, id).lon()));
            node(lina, id).setModified(true);
        }
        upload(lina);
        System.out.println("uploaded way " + path.getId() + " of version " + path.getVersion());
        System.out.println("mika has " + update(mika) + " conflicts, and the way: " + (way(mika, path.getId()) != null));

        tag(way(mika, 11), "opening_hours", "24/7");
        upload(mika);
        tag(way(lina, 11), "opening_hours", "closed");
        refused("a way that mika changed", lina);
        System.out.println("lina has " + update(lina) + " conflict");

        lina = download();
        newWay(mika, node(mika, 104), node(mika, 101));
        node(mika, 105).setDeleted(true);
        upload(mika);
        node(lina, 104).setDeleted(true);
        refused("the deletion of a node that mika used", lina);
        lina = download();
        DataSet old = download();
        node(lina, 106).setDeleted(true);
        upload(lina);
        Way onGone = newWay(old, node(old, 106), node(old, 101));
        refused("a way on a node that lina deleted", old);
        old.removePrimitive(onGone);
        tag(node(old, 101), "ele", "7");
        node(old, 106).setDeleted(true);
        refused("the deletion of a node that lina deleted", old);
        System.out.println("after an update it has " + update(old) + " conflicts");

        lina = download();
        UploadStrategySpecification single = new UploadStrategySpecification();
        single.setStrategy(UploadStrategy.INDIVIDUAL_OBJECTS_STRATEGY);
        Node alone = new Node(new LatLon(40.003, -30.002));
        lina.addPrimitive(alone);
        tag(alone, "natural", "tree");
        upload(lina, single);
        alone.setCoor(new LatLon(40.0031, -30.002));
        tag(alone, "height", "9");
        upload(lina, single);
        alone.setDeleted(true);
        upload(lina, single);
        System.out.println("one by one a node was made, changed and deleted: " + (node(download(), alone.getId()) == null));
        List<OsmPrimitive> all = new ArrayList<>(download().allPrimitives());
        all.removeIf(element -> element.isIncomplete());
        Collections.sort(all, OsmPrimitiveComparator.orderingNodesWaysRelations());
        System.out.println("the map has " + all.size() + " elements");
    }
}
