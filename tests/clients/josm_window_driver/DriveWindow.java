// License: GPL v2 or later. For details, see the file LICENSE of clients/josm.

import java.awt.Component;
import java.awt.Container;
import java.awt.Dialog;
import java.awt.Point;
import java.awt.Rectangle;
import java.awt.Robot;
import java.awt.Toolkit;
import java.awt.Window;
import java.awt.event.InputEvent;
import java.io.BufferedReader;
import java.io.File;
import java.io.InputStreamReader;
import java.io.PrintStream;
import java.nio.charset.StandardCharsets;
import java.util.ArrayList;
import java.util.Arrays;
import java.util.List;
import java.util.concurrent.Callable;
import java.util.concurrent.FutureTask;
import java.util.function.BooleanSupplier;
import java.util.stream.Collectors;

import javax.imageio.ImageIO;
import javax.swing.AbstractButton;
import javax.swing.JLabel;
import javax.swing.JList;
import javax.swing.JMenu;
import javax.swing.JMenuItem;
import javax.swing.JTextField;
import javax.swing.SwingUtilities;
import javax.swing.text.JTextComponent;

import org.openstreetmap.josm.actions.AutoScaleAction;
import org.openstreetmap.josm.actions.OpenFileAction;
import org.openstreetmap.josm.command.Command;
import org.openstreetmap.josm.data.UndoRedoHandler;
import org.openstreetmap.josm.data.coor.LatLon;
import org.openstreetmap.josm.data.osm.DataSet;
import org.openstreetmap.josm.data.osm.Filter;
import org.openstreetmap.josm.data.osm.OsmPrimitive;
import org.openstreetmap.josm.data.osm.Relation;
import org.openstreetmap.josm.data.osm.SimplePrimitiveId;
import org.openstreetmap.josm.gui.MainApplication;
import org.openstreetmap.josm.gui.MapView;
import org.openstreetmap.josm.gui.dialogs.ConflictDialog;
import org.openstreetmap.josm.gui.dialogs.ValidatorDialog;
import org.openstreetmap.josm.gui.dialogs.relation.RelationEditor;
import org.openstreetmap.josm.gui.layer.Layer;
import org.openstreetmap.josm.gui.tagging.TagEditorModel;
import org.openstreetmap.josm.gui.tagging.TagTable;

/**
 * JOSM with its window, driven by lines on standard input. The plugins are in JOSM's own class loader, so this class
 * knows them by what the window shows. It prints the lines of each answer, and then an empty line.
 *
 * <p>The arguments are JOSM's. A line is a word, and arguments after tabs.
 */
public final class DriveWindow {
    /** How many milliseconds something may take that is waited for. */
    private static final int PATIENCE = 60_000;
    /** How often the event thread is asked whether it answers, in milliseconds. */
    private static final int WATCH_PAUSE = 10;

    private final PrintStream out;
    private final Robot robot;
    private volatile long longestStall;

    private DriveWindow(PrintStream out) throws Exception {
        this.out = out;
        robot = new Robot();
        robot.setAutoDelay(20);
        robot.setAutoWaitForIdle(true);
    }

    public static void main(String[] given) throws Exception {
        PrintStream out = System.out;
        System.setOut(System.err); // JOSM's own lines
        DriveWindow driver = new DriveWindow(new PrintStream(out, true, StandardCharsets.UTF_8));
        MainApplication.main(given);
        driver.waitFor(() -> MainApplication.getMainFrame() != null && MainApplication.getMainFrame().isShowing()
                && MainApplication.getMenu() != null, "JOSM's window");
        driver.watch();
        driver.answer(List.of("ready"));
        driver.serve();
    }

    private void serve() throws Exception {
        BufferedReader lines = new BufferedReader(new InputStreamReader(System.in, StandardCharsets.UTF_8));
        for (String line = lines.readLine(); line != null; line = lines.readLine()) {
            List<String> answer;
            try {
                answer = reply(line.split("\t"));
            } catch (Exception e) {
                answer = List.of("fault " + e);
            }
            answer(answer);
        }
        Runtime.getRuntime().halt(0);
    }

    private void answer(List<String> lines) {
        lines.forEach(each -> out.println(each.replace("\n", " ")));
        out.println();
    }

    private List<String> reply(String[] words) throws Exception {
        switch (words[0]) {
        case "menu": return menu(words[1]);
        case "tool": return tool(words[1]);
        case "fill": return fill(words[1], Arrays.asList(words).subList(2, words.length));
        case "press": return press(words[1], words[2]);
        case "choose": return choose(Integer.parseInt(words[1]));
        case "dialogs": return on(() -> dialogs().stream().map(each -> each.getTitle() + ": "
                + String.join(" | ", textsOf(each))).collect(Collectors.toList()));
        case "click": return mouse(words[1], words[2], null, null, Integer.parseInt(words[3]));
        case "drag": return mouse(words[1], words[2], words[3], words[4], 1);
        case "hold": return hold(words[1], words[2], words[3], words[4]);
        case "release":
            robot.mouseRelease(InputEvent.BUTTON1_DOWN_MASK);
            return List.of();
        case "select": return on(() -> select(words[1]));
        case "tag": return on(() -> tag(words[1]));
        case "zoom": return on(() -> zoom());
        case "validate": return on(DriveWindow::validate);
        case "errors": return on(() -> List.of(
                String.valueOf(MainApplication.getMap().validatorDialog.tree.getErrors().size())));
        case "fix": return on(DriveWindow::fix);
        case "filter": return on(() -> filter(words[1]));
        case "relation": return on(() -> relation(words[1]));
        case "retag": return on(() -> retag(words[1], words[2], words[3]));
        case "resolve": return on(DriveWindow::resolve);
        case "conflicts": return on(() -> List.of(
                String.valueOf(MainApplication.getLayerManager().getEditLayer().getConflicts().size())));
        case "elements": return on(() -> List.of(String.valueOf(data().allNonDeletedPrimitives().size())));
        case "undos": return on(() -> textsOf(UndoRedoHandler.getInstance().getUndoCommands()));
        case "redos": return on(() -> textsOf(UndoRedoHandler.getInstance().getRedoCommands()));
        case "layers": return on(() -> MainApplication.getLayerManager().getLayers().stream().map(Layer::getName)
                .collect(Collectors.toList()));
        case "panel": return on(() -> textsOf(named("RoomDialog")));
        case "notices": return on(() -> textsOf(named("NotificationPanel")));
        case "stall": return stall();
        case "open": return open(words[1]);
        case "join": return join(words[1]);
        case "picture": return picture(words[1]);
        case "exit":
            SwingUtilities.invokeLater(() -> MainApplication.exitJosm(true, 0, null));
            return List.of();
        default: throw new IllegalArgumentException(words[0]);
        }
    }

    private static <T> T on(Callable<T> action) throws Exception {
        FutureTask<T> task = new FutureTask<>(action);
        SwingUtilities.invokeAndWait(task);
        return task.get();
    }

    private void waitFor(BooleanSupplier isThere, String what) throws Exception {
        long end = System.currentTimeMillis() + PATIENCE;
        while (!isThere.getAsBoolean()) {
            if (System.currentTimeMillis() > end) throw new IllegalStateException(what + " does not come");
            Thread.sleep(20);
        }
    }

    // ---- Stalls of the window.

    /** Notes for how long the event thread does not answer at most. */
    private void watch() {
        Thread thread = new Thread(() -> {
            while (true) {
                long begin = System.nanoTime();
                try {
                    SwingUtilities.invokeAndWait(() -> { });
                    longestStall = Math.max(longestStall, System.nanoTime() - begin);
                    Thread.sleep(WATCH_PAUSE);
                } catch (Exception e) {
                    return;
                }
            }
        });
        thread.setDaemon(true);
        thread.start();
    }

    private List<String> stall() {
        long stall = longestStall;
        longestStall = 0;
        return List.of(String.valueOf(stall / 1_000_000));
    }

    /** Opens a file, and returns the milliseconds until it is drawn, and the longest stall. */
    private List<String> open(String path) throws Exception {
        return timed(() -> OpenFileAction.openFiles(List.of(new File(path))));
    }

    /** Presses the button of the dialog that joins, and returns the milliseconds until the room is drawn. */
    private List<String> join(String title) throws Exception {
        Dialog dialog = dialog(title);
        return timed(() -> SwingUtilities.invokeLater(() -> button(dialog, "Join").doClick()));
    }

    private List<String> timed(Runnable action) throws Exception {
        int before = on(() -> MainApplication.getLayerManager().getLayers().size());
        longestStall = 0;
        long begin = System.nanoTime();
        action.run();
        waitFor(() -> {
            try {
                return on(() -> MainApplication.getLayerManager().getLayers().size() > before);
            } catch (Exception e) {
                return false;
            }
        }, "the layer");
        on(() -> null); // after what the new layer has caused
        on(() -> {
            MapView view = MainApplication.getMap().mapView;
            view.paintImmediately(0, 0, view.getWidth(), view.getHeight());
            return null;
        });
        long taken = System.nanoTime() - begin;
        return List.of(String.valueOf(taken / 1_000_000), stall().get(0));
    }

    // ---- The window.

    private static DataSet data() {
        return MainApplication.getLayerManager().getEditDataSet();
    }

    private List<String> menu(String text) throws Exception {
        JMenuItem item = on(() -> menuItem(text));
        if (!item.isEnabled()) return List.of("disabled");
        SwingUtilities.invokeLater(() -> item.doClick(0)); // it may open a dialog
        Thread.sleep(100);
        return List.of();
    }

    private static JMenuItem menuItem(String text) {
        List<JMenuItem> all = new ArrayList<>();
        for (Component each : MainApplication.getMenu().getComponents()) {
            if (!(each instanceof JMenu)) continue;
            for (Component below : ((JMenu) each).getMenuComponents()) {
                if (below instanceof JMenuItem && ((JMenuItem) below).getText() != null) all.add((JMenuItem) below);
            }
        }
        // JOSM adds what it would undo to the name of the entry.
        return all.stream().filter(each -> each.getText().equals(text)).findFirst()
                .or(() -> all.stream().filter(each -> each.getText().startsWith(text)).findFirst())
                .orElseThrow(() -> new IllegalArgumentException("no menu entry " + text));
    }

    private static List<String> tool(String mode) throws Exception {
        return on(() -> {
            boolean isDraw = mode.equals("draw");
            MainApplication.getMap().selectMapMode(isDraw ? MainApplication.getMap().mapModeDraw
                    : MainApplication.getMap().mapModeSelect);
            return List.of();
        });
    }

    private static List<Dialog> dialogs() {
        return Arrays.stream(Window.getWindows()).filter(each -> each instanceof Dialog && each.isShowing())
                .map(each -> (Dialog) each).collect(Collectors.toList());
    }

    private Dialog dialog(String title) throws Exception {
        Dialog[] found = {null};
        waitFor(() -> {
            found[0] = dialogs().stream().filter(each -> each.getTitle().startsWith(title)).findFirst().orElse(null);
            return found[0] != null;
        }, "the dialog " + title);
        return found[0];
    }

    private List<String> fill(String title, List<String> values) throws Exception {
        Dialog dialog = dialog(title);
        return on(() -> {
            List<JTextField> fields = below(dialog, JTextField.class);
            for (int i = 0; i < values.size(); i++) fields.get(i).setText(values.get(i));
            return List.of();
        });
    }

    private List<String> press(String title, String text) throws Exception {
        Window window = title.isEmpty() ? MainApplication.getMainFrame() : dialog(title);
        AbstractButton button = on(() -> button(window, text));
        if (!button.isEnabled()) return List.of("disabled");
        SwingUtilities.invokeLater(button::doClick);
        Thread.sleep(100);
        return List.of();
    }

    private static AbstractButton button(Window window, String text) {
        return below(window, AbstractButton.class).stream().filter(each -> text.equals(each.getText())).findFirst()
                .orElseThrow(() -> new IllegalArgumentException("no button " + text));
    }

    /** Chooses a line of the room's panel. */
    private static List<String> choose(int index) throws Exception {
        return on(() -> {
            below((Container) named("RoomDialog").get(0), JList.class).get(0).setSelectedIndex(index);
            return List.of();
        });
    }

    private static List<Component> named(String type) {
        List<Component> found = new ArrayList<>();
        for (Window each : Window.getWindows()) {
            if (!each.isShowing()) continue;
            below(each, Component.class).stream().filter(part -> part.getClass().getSimpleName().equals(type))
                    .forEach(found::add);
        }
        return found;
    }

    private static <T> List<T> below(Container container, Class<T> type) {
        List<T> found = new ArrayList<>();
        for (Component each : container.getComponents()) {
            if (type.isInstance(each)) found.add(type.cast(each));
            if (each instanceof Container) found.addAll(below((Container) each, type));
        }
        return found;
    }

    private static List<String> textsOf(List<?> given) {
        List<String> texts = new ArrayList<>();
        for (Object each : given) {
            if (each instanceof Command) texts.add(((Command) each).getDescriptionText());
            else texts.addAll(textsOf((Container) each));
        }
        return texts;
    }

    private static List<String> textsOf(Container container) {
        List<String> texts = new ArrayList<>();
        for (Component each : below(container, Component.class)) {
            if (each instanceof JLabel) texts.add(((JLabel) each).getText());
            else if (each instanceof JTextComponent) texts.add(((JTextComponent) each).getText());
            else if (each instanceof JList) addItems((JList<?>) each, texts);
            else if (each instanceof AbstractButton && each.isShowing()) texts.add(buttonText((AbstractButton) each));
        }
        return texts.stream().filter(each -> each != null && !each.isBlank()).map(DriveWindow::plain)
                .collect(Collectors.toList());
    }

    private static String buttonText(AbstractButton button) {
        boolean isPlain = button.getText() != null && !button.getText().isBlank();
        return isPlain ? "[" + button.getText() + (button.isEnabled() ? "]" : "] disabled") : null;
    }

    private static void addItems(JList<?> list, List<String> texts) {
        for (int i = 0; i < list.getModel().getSize(); i++) texts.add(String.valueOf(list.getModel().getElementAt(i)));
    }

    private static String plain(String text) {
        return text.replaceAll("<style.*?</style>|<[^>]*>", " ").replaceAll("\\s+", " ").trim();
    }

    // ---- The map.

    private static Point place(String lat, String lon) throws Exception {
        return on(() -> {
            MapView view = MainApplication.getMap().mapView;
            Point point = view.getPoint(new LatLon(Double.parseDouble(lat), Double.parseDouble(lon)));
            SwingUtilities.convertPointToScreen(point, view);
            return point;
        });
    }

    private List<String> mouse(String lat, String lon, String toLat, String toLon, int clicks) throws Exception {
        Point from = place(lat, lon);
        robot.mouseMove(from.x - 3, from.y);
        robot.mouseMove(from.x, from.y);
        if (toLat != null) {
            hold(lat, lon, toLat, toLon);
            robot.mouseRelease(InputEvent.BUTTON1_DOWN_MASK);
            return List.of();
        }
        for (int i = 0; i < clicks; i++) {
            robot.mousePress(InputEvent.BUTTON1_DOWN_MASK);
            robot.mouseRelease(InputEvent.BUTTON1_DOWN_MASK);
        }
        if (clicks == 1) robot.delay(400); // otherwise the next click is a double click
        return List.of();
    }

    /** Drags without a release. */
    private List<String> hold(String lat, String lon, String toLat, String toLon) throws Exception {
        Point from = place(lat, lon);
        Point to = place(toLat, toLon);
        robot.mouseMove(from.x, from.y);
        robot.delay(100);
        robot.mousePress(InputEvent.BUTTON1_DOWN_MASK);
        robot.delay(300); // JOSM takes a shorter drag for a click
        for (int i = 1; i <= 10; i++) {
            robot.mouseMove(from.x + (to.x - from.x) * i / 10, from.y + (to.y - from.y) * i / 10);
        }
        robot.delay(300);
        return List.of();
    }

    private static OsmPrimitive primitive(String name) {
        OsmPrimitive found = data().getPrimitiveById(SimplePrimitiveId.fromString(name));
        if (found == null) throw new IllegalArgumentException("no element " + name);
        return found;
    }

    private static List<String> select(String name) {
        data().setSelected(primitive(name));
        return List.of();
    }

    /** Returns the tags, or the position, of an element. */
    private static List<String> tag(String name) {
        OsmPrimitive found = primitive(name);
        List<String> texts = new ArrayList<>();
        texts.add(found.isDeleted() ? "deleted" : "there");
        found.getKeys().forEach((key, value) -> texts.add(key + "=" + value));
        return texts;
    }

    private static List<String> zoom() {
        AutoScaleAction.autoScale(AutoScaleAction.AutoScaleMode.DATA);
        return List.of();
    }

    // ---- Tools of JOSM.

    /** Shows the panel of the validator, and lets it look at the whole layer. */
    private static List<String> validate() {
        MainApplication.getMap().validatorDialog.unfurlDialog();
        ValidatorDialog.validateAction.doValidate(false);
        return List.of();
    }

    /** Chooses all errors of the validator, and presses the button that repairs them. */
    private static List<String> fix() {
        ValidatorDialog dialog = MainApplication.getMap().validatorDialog;
        dialog.tree.setSelectionInterval(0, dialog.tree.getRowCount() - 1);
        below(dialog, AbstractButton.class).stream().filter(each -> "Fix".equals(each.getText())).findFirst()
                .orElseThrow().doClick(); // nothing, if there is no error any more
        return List.of();
    }

    /** Hides what a search finds. */
    private static List<String> filter(String text) {
        Filter filter = new Filter();
        filter.text = text;
        filter.hiding = true;
        MainApplication.getMap().filterDialog.getFilterModel().addFilter(filter);
        return List.of();
    }

    /** Opens the editor of a relation. */
    private static List<String> relation(String name) {
        Relation relation = (Relation) primitive(name);
        RelationEditor.getEditor(MainApplication.getLayerManager().getEditLayer(), relation, List.of())
                .setVisible(true);
        return List.of();
    }

    /** Opens JOSM's window for the first conflict of the layer. */
    private static List<String> resolve() {
        ConflictDialog dialog = MainApplication.getMap().conflictDialog;
        dialog.unfurlDialog();
        below(dialog, JList.class).get(0).setSelectedIndex(0);
        SwingUtilities.invokeLater(() -> below(dialog, AbstractButton.class).stream()
                .filter(each -> "Resolve".equals(each.getText())).findFirst().orElseThrow().doClick());
        return List.of();
    }

    /** Changes the value of a tag in the table of a dialog. */
    private List<String> retag(String title, String key, String value) throws Exception {
        Dialog dialog = dialogs().stream().filter(each -> each.getTitle().startsWith(title)).findFirst().orElseThrow();
        TagEditorModel model = (TagEditorModel) below(dialog, TagTable.class).get(0).getModel();
        model.updateTagValue(model.get(key), value);
        return List.of();
    }

    private List<String> picture(String path) throws Exception {
        robot.waitForIdle();
        robot.delay(500);
        Rectangle screen = new Rectangle(Toolkit.getDefaultToolkit().getScreenSize());
        ImageIO.write(robot.createScreenCapture(screen), "png", new File(path));
        return List.of();
    }
}
