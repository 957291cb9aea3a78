// ---- Names in three dimensions: on faces that can be seen, lying in the face ------------------------------------------------

/**
 * A way to write on a face that looks at the viewer: the axis of the face, those along and across the text, where the text goes
 * on the stage, and how much of its size is seen.
 * @typedef {{axis: number, u: number, v: number, along: [number, number], down: [number, number], seen: number}} Writing
 */

const MOST_NAMES = 240;

/** Writes names on boxes. */
class Names {
  /** @param {CanvasRenderingContext2D} context @param {Look} look @param {Ruler} ruler */
  constructor(context, look, ruler) {
    this.context = context;
    this.look = look;
    this.ruler = ruler;
  }

  /**
   * Writes the names that are largest, where nothing hides them.
   * @param {Sight} sight @param {Item[]} items @param {View} view
   */
  draw(sight, items, view) {
    const found = view.matches ? items.filter((item) => view.matches && view.matches.has(item)) : items;
    const places = this.places(sight, found).sort((a, b) => b.seen - a.seen || a.item.index - b.item.index);
    const toViewer = /** @type {Triple} */ (sight.rows[2].map((it) => -it));
    /** @type {Set<Item>} */
    const done = new Set();
    for (const { item, writing, font } of places.slice(0, 3 * MOST_NAMES)) {
      const middle = middleOfFace(item, writing.axis, sight);
      if (done.size >= MOST_NAMES || done.has(item) || isHidden(middle, toViewer, item, items)) continue;
      done.add(item);
      this.write(item.name, sight.at(middle), writing, font);
    }
  }

  /**
   * Where names have room.
   * @param {Sight} sight @param {Item[]} items
   */
  places(sight, items) {
    const pixels = sight.cell.scale * sight.camera.zoom;
    const writings = writingsOf(sight);
    /** @type {{item: Item, writing: Writing, font: number, seen: number}[]} */
    const places = [];
    for (const item of items) {
      const wide = this.ruler.width(item.name);
      for (const writing of writings) {
        const font = Math.min(LABEL.most, (item.size[writing.u] * pixels * 0.9) / wide, item.size[writing.v] * pixels * 0.8);
        const seen = font * writing.seen;
        if (seen >= LABEL.least * 0.85) places.push({ item, writing, font, seen });
      }
    }
    return places;
  }

  /** @param {string} text @param {[number, number]} at @param {Writing} writing @param {number} font */
  write(text, at, { along, down }, font) {
    const { context } = this;
    context.save();
    context.transform(along[0], along[1], down[0], down[1], at[0], at[1]);
    context.font = `${font}px ${FONT}`;
    context.fillStyle = this.look.colours.label;
    context.textAlign = "center";
    context.textBaseline = "middle";
    context.fillText(text, 0, 0);
    context.restore();
  }
}

/** @param {Sight} sight @returns {Writing[]} */
function writingsOf(sight) {
  return [[0, 1, 2], [0, 2, 1], [1, 0, 2], [1, 2, 0], [2, 0, 1], [2, 1, 0]].flatMap(([axis, u, v]) => {
    const [along, down] = [direction(sight, u, 0), direction(sight, v, 1)];
    const upright = along[0] * down[1] - along[1] * down[0];
    const seen = Math.min(Math.hypot(...along), Math.hypot(...down), upright);
    return seen > 0.35 ? [{ axis, u, v, along, down, seen }] : [];
  });
}

/**
 * Where an axis goes on the stage, turned so that it goes to the right (0) or down (1).
 * @param {Sight} sight @param {number} axis @param {number} which @returns {[number, number]}
 */
function direction(sight, axis, which) {
  const [x, y] = [sight.rows[0][axis], -sight.rows[1][axis]];
  return [x, y][which] < 0 ? [-x, -y] : [x, y];
}

/**
 * The middle of the face across an axis that looks at the viewer.
 * @param {Item} item @param {number} axis @param {Sight} sight @returns {Triple}
 */
function middleOfFace(item, axis, sight) {
  const middle = /** @type {Triple} */ (item.at.map((it, index) => it + item.size[index] / 2));
  middle[axis] = item.at[axis] + sight.near()[axis] * item.size[axis];
  return middle;
}

/**
 * Whether a box stands between a point of another and the viewer.
 * @param {Triple} point @param {Triple} way @param {Item} item @param {Item[]} items
 */
function isHidden(point, way, item, items) {
  return items.some((other) => {
    const met = other === item ? null : crossing(point, way, other);
    return met !== null && met[1] > 1e-6 && met[1] - Math.max(met[0], 0) > 1e-6;
  });
}
