// ---- Where bins stand on the page, and from where they are seen -------------------------------------------------------------

/**
 * Where a bin is drawn, in pixels at zoom 1: the middle and the extent of its place, and how many pixels a cell has.
 * @typedef {{room: Room, x: number, y: number, width: number, height: number, scale: number}} Cell
 *
 * The room for bins, and how high what stands above one is.
 * @typedef {{width: number, height: number, caption: number}} Inside
 *
 * An axis and its direction: 1 forward, -1 backward.
 * @typedef {[number, number]} Way
 * @typedef {{right: Way, up: Way, away: Way}} Side
 */

const GAP = 26;
const MARGIN = 18;
const NARROWEST = 132;
// The longer side of the largest bin has so many pixels at least. Where not all bins have room then, the drawing goes on below.
const SMALLEST = 96;
// How far a bin is turned toward the viewer at first.
const PITCH = 0.45;

/**
 * The sides from which a bin is seen straight on. x goes right, y up, z away from the front.
 * @type {Object<string, Side>}
 */
const SIDES = {
  front: { right: [0, 1], up: [1, 1], away: [2, 1] },
  back: { right: [0, -1], up: [1, 1], away: [2, -1] },
  left: { right: [2, -1], up: [1, 1], away: [0, 1] },
  right: { right: [2, 1], up: [1, 1], away: [0, -1] },
  above: { right: [0, 1], up: [2, 1], away: [1, -1] },
  below: { right: [0, 1], up: [2, -1], away: [1, 1] },
};
/**
 * A page, whose rows are counted from above.
 * @type {Side}
 */
const PAGE_SIDE = { right: [0, 1], up: [1, -1], away: [2, 1] };

/**
 * Where a part begins on a way through its bin.
 * @param {Part} part @param {Room} room @param {Way} way
 */
function along(part, room, way) {
  const [axis, direction] = way;
  return direction > 0 ? part.at[axis] : room.size[axis] - part.at[axis] - part.size[axis];
}

/**
 * Puts bins side by side, in rows, as large as they fit. Where the rows end follows from how the bins are seen at first, so
 * that it stays while they are turned.
 * @param {Room[]} rooms
 * @param {[number, number][]} first the width and the height of each bin as it is seen at first, in cells
 * @param {[number, number][]} now and as it is seen now
 * @param {number} width
 * @param {number} height
 * @param {number} caption how high what stands above a bin is
 * @returns {Cell[]}
 */
function arranged(rooms, first, now, width, height, caption) {
  const inside = { width: Math.max(60, width - 2 * MARGIN), height: Math.max(60, height - 2 * MARGIN), caption };
  const ends = evenEnds(first, greatest(first, inside, null), inside);
  const scale = greatest(now, inside, ends);
  const found = rows(now, scale, inside, ends);
  const left = (width - found.width) / 2;
  const top = Math.max(MARGIN, (height - found.height) / 2);
  return rooms.map((room, index) => {
    const [w, h] = now[index];
    const [x, y] = found.corners[index];
    return {
      room, x: left + x + (w * scale) / 2, y: top + y + caption + (h * scale) / 2, width: w * scale, height: h * scale, scale,
    };
  });
}

/**
 * Which bins end a row, in as few rows as there have to be, of which the longest is as short as it can be.
 * @param {[number, number][]} extents
 * @param {number} scale
 * @param {Inside} inside
 */
function evenEnds(extents, scale, inside) {
  const { ends } = rows(extents, scale, inside, null);
  let [low, high] = [0, inside.width];
  for (let round = 0; round < 12; round += 1) {
    const middle = (low + high) / 2;
    if (rows(extents, scale, { ...inside, width: middle }, null).ends.size > ends.size) low = middle;
    else high = middle;
  }
  return rows(extents, scale, { ...inside, width: high }, null).ends;
}

/**
 * The greatest number of pixels for a cell with which the rows fit; but bins are never so small that they cannot be seen.
 * @param {[number, number][]} extents
 * @param {Inside} inside
 * @param {Set<number> | null} ends
 */
function greatest(extents, inside, ends) {
  const widest = Math.max(1, ...extents.map((it) => it[0]));
  const tallest = Math.max(1, ...extents.map((it) => it[1]));
  let [low, high] = [Math.min(SMALLEST / Math.max(widest, tallest), inside.width / widest), inside.width / widest];
  for (let round = 0; round < 40; round += 1) {
    const middle = (low + high) / 2;
    const it = rows(extents, middle, inside, ends);
    if (it.width <= inside.width && it.height <= inside.height) low = middle;
    else high = middle;
  }
  return low;
}

/**
 * The corners of bins in rows, at so many pixels for a cell, the extent of the whole, and which bins end a row. They are given,
 * or a row ends where the next bin is not inside.
 * @param {[number, number][]} extents
 * @param {number} scale
 * @param {Inside} inside
 * @param {Set<number> | null} given
 */
function rows(extents, scale, { width, caption }, given) {
  /** @type {[number, number][]} */
  const corners = [];
  /** @type {Set<number>} */
  const ends = new Set();
  let [x, y, row, reach] = [0, 0, 0, 0];
  extents.forEach(([w, h], index) => {
    const wide = Math.max(w * scale, Math.min(NARROWEST, width));
    if (x > 0 && (given ? given.has(index - 1) : x + wide > width)) {
      ends.add(index - 1);
      [x, y, row] = [0, y + row + GAP, 0];
    }
    corners.push([x, y]);
    reach = Math.max(reach, x + wide);
    [x, row] = [x + wide + GAP, Math.max(row, h * scale + caption)];
  });
  return { corners, ends, width: reach, height: y + row };
}

/**
 * The width and the height of a bin at any turn about the axis y, in cells.
 * @param {Triple} size
 * @param {number} pitch
 * @returns {[number, number]}
 */
function turnedExtent(size, pitch) {
  const long = Math.hypot(size[0], size[2]);
  return [long, size[1] * Math.cos(pitch) + long * Math.abs(Math.sin(pitch))];
}

/** Zoom and shift: a point of the page is at point * zoom + shift on the stage. */
class Camera {
  constructor() {
    this.zoom = 1;
    this.x = 0;
    this.y = 0;
    this.greatest = 64;
  }

  reset() {
    [this.zoom, this.x, this.y] = [1, 0, 0];
  }

  /** @param {number} x @param {number} y */
  toPage(x, y) {
    return [(x - this.x) / this.zoom, (y - this.y) / this.zoom];
  }

  /**
   * Zooms, and keeps the point of the stage in its place.
   * @param {number} x @param {number} y @param {number} factor
   */
  zoomAt(x, y, factor) {
    const zoom = Math.min(this.greatest, Math.max(0.2, this.zoom * factor));
    const by = zoom / this.zoom;
    [this.zoom, this.x, this.y] = [zoom, x - (x - this.x) * by, y - (y - this.y) * by];
  }

  /** @param {number} dx @param {number} dy */
  shift(dx, dy) {
    this.x += dx;
    this.y += dy;
  }
}

/** How a bin is turned: first about the axis y, then toward the viewer. */
class Turn {
  constructor() {
    this.reset();
  }

  reset() {
    this.yaw = 0.62;
    this.pitch = PITCH;
  }

  /** @param {number} yaw @param {number} pitch */
  by(yaw, pitch) {
    this.yaw = (this.yaw + yaw) % (2 * Math.PI);
    this.pitch = Math.min(Math.PI / 2, Math.max(-Math.PI / 2, this.pitch + pitch));
  }

  /**
   * The rows of the matrix: what goes right, up and away.
   * @returns {[Triple, Triple, Triple]}
   */
  rows() {
    const [c, s, k, t] = [Math.cos(this.yaw), Math.sin(this.yaw), Math.cos(this.pitch), Math.sin(this.pitch)];
    return [[c, 0, s], [-s * t, k, c * t], [-s * k, -t, c * k]];
  }
}

/** @param {Triple} a @param {Triple} b */
function dot(a, b) {
  return a[0] * b[0] + a[1] * b[1] + a[2] * b[2];
}
