// Where a photo was taken: the place in the Exif data of a JPEG file.
"use strict";

const JPEG = 0xffd8;
const APP1 = 0xffe1; // the segment that can have Exif data
const SCAN = 0xffda; // the image itself begins
const EXIF = 0x45786966; // "Exif"
const BIG_ENDIAN = 0x4d4d; // "MM"
const GPS = 0x8825; // the tag that has where the tags of the place are
const [LAT_SIDE, LAT, LON_SIDE, LON] = [1, 2, 3, 4]; // tags of the place
const ENTRY = 12; // bytes of a tag
const RATIONAL = 8; // bytes of a fraction

/** The Exif data of a file, or null. It reads no further than the data goes. */
class Exif {
  /**
   * @param {DataView} data
   * @param {number} start where the header is, from which places in the data are counted
   */
  constructor(data, start) {
    this.data = data;
    this.start = start;
    this.isLittle = data.getUint16(start) !== BIG_ENDIAN;
  }

  /** @param {number} at */
  short(at) {
    return this.data.getUint16(this.start + at, this.isLittle);
  }

  /** @param {number} at */
  long(at) {
    return this.data.getUint32(this.start + at, this.isLittle);
  }

  /**
   * Where the tags of a list are, by their numbers.
   * @param {number} list
   * @returns {Map<number, number>}
   */
  tagsAt(list) {
    const count = this.short(list);
    return new Map(Array.from({ length: count }, (_, index) => {
      const at = list + 2 + index * ENTRY;
      return [this.short(at), at];
    }));
  }

  /**
   * The degrees of a tag that has degrees, minutes and seconds, each as a fraction.
   * @param {number} tag
   */
  degreesAt(tag) {
    const at = this.long(tag + 8);
    const [degrees, minutes, seconds] = [0, 1, 2].map((index) => {
      const [over, under] = [this.long(at + index * RATIONAL), this.long(at + index * RATIONAL + 4)];
      return under ? over / under : 0;
    });
    return degrees + minutes / 60 + seconds / 3600;
  }

  /**
   * The latitude and the longitude, or null if there is none.
   * @returns {{ lat: number, lon: number } | null}
   */
  place() {
    const gps = this.tagsAt(this.long(4)).get(GPS);
    if (gps === undefined) return null;
    const tags = this.tagsAt(this.long(gps + 8));
    const [lat, lon] = [tags.get(LAT), tags.get(LON)];
    if (lat === undefined || lon === undefined) return null;
    /** @param {number} tag */
    const sideOf = (tag) => String.fromCharCode(this.data.getUint8(this.start + (tags.get(tag) ?? 0) + 8));
    const place = {
      lat: this.degreesAt(lat) * (sideOf(LAT_SIDE) === "S" ? -1 : 1),
      lon: this.degreesAt(lon) * (sideOf(LON_SIDE) === "W" ? -1 : 1),
    };
    return Math.abs(place.lat) <= 90 && Math.abs(place.lon) <= 180 ? place : null;
  }
}

/**
 * Where a photo was taken, or null if the file does not say that or is damaged.
 * @param {ArrayBuffer} buffer
 */
function placeOfPhoto(buffer) {
  const data = new DataView(buffer);
  try {
    if (data.getUint16(0) !== JPEG) return null;
    for (let at = 2; data.getUint16(at) !== SCAN; at += 2 + data.getUint16(at + 2)) {
      if (data.getUint16(at) === APP1 && data.getUint32(at + 4) === EXIF) return new Exif(data, at + 10).place();
    }
  } catch (error) {
    if (!(error instanceof RangeError)) throw error; // the data ends too early
  }
  return null;
}
