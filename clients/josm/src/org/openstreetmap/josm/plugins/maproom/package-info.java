// License: GPL v2 or later. For details, see the file LICENSE.
/**
 * Makes JOSM a live client of a room of maproom.
 *
 * <p>From the socket to the window:
 *
 * <ul>
 * <li>{@code Json}, {@code Name}, {@code Row}, {@code Difference}, {@code Answer}, {@code Messages}: texts, elements
 *     and messages of the protocol.
 * <li>{@code RoomCore}: the mirror, and which messages have no answer. {@code RoomConnection}: its WebSocket.
 * <li>{@code Change}, {@code Group}, {@code Planner}: what one command changed, and the order of its actions.
 * <li>{@code LiveSession}: has all parts of a session, and hears the room. {@code Ticks} says when it works.
 * <li>{@code Primitives}: the primitive and the name of each element. {@code Overlay}: what the data set has to show.
 * <li>{@code DirtyElements}, {@code GroupMaker}: from the data set to the room. {@code Settler}: from the room to the
 *     data set.
 * <li>{@code Jobs}, {@code GroupAnswers}: what is asked of the room, and what an answer leads to.
 * <li>{@code RoomLists}: what the mapper can undo and redo. {@code CommandList}, {@code RoomCommand}: JOSM's lists.
 * <li>{@code History}, {@code Reasons}: who changed what, and refusals in words.
 * <li>{@code RoomLayer}, {@code RoomDialog}, {@code JoinAction}, {@code Gestures}, {@code MaproomPlugin}: the window.
 * </ul>
 *
 * <p>All calls are on JOSM's event thread, except where a comment says otherwise.
 */
package org.openstreetmap.josm.plugins.maproom;
