// Tracks in the format GPX.
"use strict";

/**
 * A track on the plane: the name of its file, its lines, and its single points.
 * @typedef {{ name: string, lines: Position[][], points: Position[] }} Track
 */

/**
 * The track of a GPX file, or null if the text is none.
 * @param {string} name
 * @param {string} text
 * @returns {Track | null}
 */
function trackOf(name, text) {
  const parsed = new DOMParser().parseFromString(text, "application/xml");
  if (parsed.documentElement.localName !== "gpx") return null;
  /**
   * @param {Document | Element} within
   * @param {string} tag
   */
  const all = (within, tag) => [...within.getElementsByTagNameNS("*", tag)];
  /**
   * @param {Element} point
   * @returns {Position[]}
   */
  const positionOf = (point) => {
    const [lat, lon] = ["lat", "lon"].map((each) => parseFloat(point.getAttribute(each) ?? ""));
    return Math.abs(lat) <= 90 && Math.abs(lon) <= 180 ? [{ x: Mercator.x(lon), y: Mercator.y(lat) }] : [];
  };
  const lines = [
    ...all(parsed, "trkseg").map((segment) => all(segment, "trkpt")),
    ...all(parsed, "rte").map((route) => all(route, "rtept")),
  ].map((points) => points.flatMap(positionOf));
  const points = all(parsed, "wpt").flatMap(positionOf);
  return lines.some((each) => each.length > 0) || points.length > 0 ? { name, lines, points } : null;
}
