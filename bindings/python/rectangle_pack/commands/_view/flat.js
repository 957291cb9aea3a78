// ---- Drawing in two dimensions ----------------------------------------------------------------------------------------------

/** @typedef {{x: number, y: number, w: number, h: number}} Rect */

// How much is seen of boxes that are not found.
const FADED = 0.22;

/**
 * Where a part is on the stage, seen from a side.
 * @param {Part} part @param {Cell} cell @param {View} view @returns {Rect}
 */
function rectOf(part, cell, view) {
  const { room, scale } = cell;
  const { right, up } = view.side;
  const [w, h] = [part.size[right[0]] * scale, part.size[up[0]] * scale];
  const x = cell.x - (room.size[right[0]] * scale) / 2 + along(part, room, right) * scale;
  const y = cell.y + (room.size[up[0]] * scale) / 2 - along(part, room, up) * scale - h;
  const { zoom } = view.camera;
  return { x: x * zoom + view.camera.x, y: y * zoom + view.camera.y, w: w * zoom, h: h * zoom };
}

/** @param {Room} room @returns {Part} */
function wholeOf(room) {
  return { at: [0, 0, 0], size: room.size };
}

/** Draws bins from a side, straight on. */
class FlatPicture {
  /** @param {CanvasRenderingContext2D} context @param {Look} look */
  constructor(context, look) {
    this.context = context;
    this.look = look;
    this.ruler = new Ruler(context);
    this.width = 0;
    this.height = 0;
    /** @type {Map<Room, HTMLImageElement>} */
    this.images = new Map();
    this.onImage = () => {};
  }

  /** @param {View} view */
  draw(view) {
    for (const cell of view.cells) this.drawCell(cell, view);
    for (const item of view.ghosts) this.drawGhost(item, view);
    this.drawMarks(view);
    if (view.cuts) this.drawCut(view.cuts[view.cuts.length - 1], view);
    drawBinMarks(this.context, this.look, view);
    for (const cell of view.cells) drawCaption(this.context, this.look, cell, rectOf(wholeOf(cell.room), cell, view), view);
  }

  /** @param {Cell} cell @param {View} view */
  drawCell(cell, view) {
    const { context, look } = this;
    const bin = rectOf(wholeOf(cell.room), cell, view);
    if (!this.isSeen(bin)) return;
    const image = view.pictures && view.scene.isFlat && cell.room.image ? this.image(cell.room) : null;
    context.fillStyle = look.freePaint(context);
    context.fillRect(bin.x, bin.y, bin.w, bin.h);
    if (image) {
      context.imageSmoothingEnabled = bin.w < cell.room.size[0];
      context.drawImage(image, bin.x, bin.y, bin.w, bin.h);
    }
    if (view.free) this.drawSections(cell, view);
    const items = behindFirst(view.items.get(cell.room) || [], cell.room, view);
    const hasNames = view.names && image === null;
    for (const item of items) {
      const rect = rectOf(item, cell, view);
      this.drawItem(item, rect, view, image !== null);
      // A box that is in front hides the name of one behind it.
      if (hasNames && !view.scene.isFlat) this.drawName(item, rect, view);
    }
    this.outline(bin, look.colours.line, 1.5);
    if (view.cuts) this.drawParts(cell, view.cuts, view);
    if (hasNames && view.scene.isFlat) for (const item of items) this.drawName(item, rectOf(item, cell, view), view);
  }

  /** @param {Rect} rect */
  isSeen(rect) {
    return rect.x < this.width && rect.y < this.height && rect.x + rect.w > 0 && rect.y + rect.h > 0;
  }

  /**
   * The picture of a bin, once the browser has read it.
   * @param {Room} room
   */
  image(room) {
    let image = this.images.get(room);
    if (!image) {
      image = new Image();
      image.addEventListener("load", () => this.onImage());
      image.src = room.image;
      this.images.set(room, image);
    }
    return image.complete && image.naturalWidth > 0 ? image : null;
  }

  /** @param {Cell} cell @param {View} view */
  drawSections(cell, view) {
    const { context, look } = this;
    context.setLineDash([5, 4]);
    for (const section of view.sections.get(cell.room) || []) {
      const { x, y, w, h } = rectOf(section, cell, view);
      if (w > 6 && h > 6) this.outline({ x: x + 2, y: y + 2, w: w - 4, h: h - 4 }, look.colours.faint, 1);
    }
    context.setLineDash([]);
  }

  /** @param {Item} item @param {Rect} rect @param {View} view @param {boolean} hasImage */
  drawItem(item, rect, view, hasImage) {
    if (!this.isSeen(rect)) return;
    const { context, look } = this;
    context.globalAlpha = view.matches && !view.matches.has(item) ? FADED : 1;
    if (!hasImage) {
      context.fillStyle = look.paint(context, item.group);
      context.fillRect(rect.x, rect.y, rect.w, rect.h);
    }
    this.outline(rect, hasImage ? look.colours.line : look.colours.edge, 0.8);
    context.globalAlpha = 1;
  }

  /** @param {Item} item @param {Rect} rect @param {View} view */
  drawName(item, rect, view) {
    if (!this.isSeen(rect)) return;
    const cut = view.cuts && view.cuts[view.cuts.length - 1];
    const isAside = cut && cut.room === item.room && !isInside(item, cut);
    this.context.globalAlpha = view.matches && !view.matches.has(item) ? FADED : isAside ? 0.5 : 1;
    this.label(rect, item.name);
    this.context.globalAlpha = 1;
  }

  /** @param {Rect} rect @param {string} colour @param {number} width */
  outline(rect, colour, width) {
    this.context.strokeStyle = colour;
    this.context.lineWidth = width;
    this.context.strokeRect(rect.x, rect.y, Math.max(rect.w, 0.01), Math.max(rect.h, 0.01));
  }

  /**
   * The name in the middle: along the box, or up it, as large as it fits; else none.
   * @param {Rect} rect @param {string} text
   */
  label(rect, text) {
    const { context, look } = this;
    if (Math.max(rect.w, rect.h) < 16 || Math.min(rect.w, rect.h) < LABEL.least) return;
    const wide = this.ruler.width(text);
    const size = (/** @type {number} */ along, /** @type {number} */ across) => (
      Math.min(LABEL.most, (along - 5) / wide, (across - 2) / 1.1)
    );
    const [flat, upright] = [size(rect.w, rect.h), size(rect.h, rect.w)];
    const turns = flat < LABEL.least && upright > flat;
    const font = turns ? upright : flat;
    if (font < LABEL.least) return;
    context.save();
    context.translate(rect.x + rect.w / 2, rect.y + rect.h / 2);
    if (turns) context.rotate(-Math.PI / 2);
    context.font = `${font}px ${FONT}`;
    context.fillStyle = look.colours.label;
    context.textAlign = "center";
    context.textBaseline = "middle";
    context.fillText(text, 0, 0.5);
    context.restore();
  }

  /**
   * A box that the step took away.
   * @param {Item} item @param {View} view
   */
  drawGhost(item, view) {
    const cell = view.cells.find((it) => it.room === item.room);
    if (!cell) return;
    const rect = rectOf(item, cell, view);
    drawReleased(this.context, this.look, [[rect.x, rect.y], [rect.x + rect.w, rect.y], [rect.x + rect.w, rect.y + rect.h],
      [rect.x, rect.y + rect.h]]);
  }

  /**
   * What the step placed, what was found, and the box that is chosen.
   * @param {View} view
   */
  drawMarks(view) {
    const { look } = this;
    for (const cell of view.cells) {
      for (const item of view.items.get(cell.room) || []) {
        const rect = rectOf(item, cell, view);
        if (!this.isSeen(rect)) continue;
        if (view.placed.has(item)) this.mark(rect, look.colours.placed, 3);
        if (view.matches && view.matches.has(item)) this.mark(rect, look.colours.match, 3);
        if (item === view.hovered) this.mark(rect, look.colours.selected, 2);
        if (item === view.selected) this.chosen(rect);
      }
    }
  }

  /** @param {Rect} rect @param {string} colour @param {number} width */
  mark(rect, colour, width) {
    const inset = Math.min(width / 2, rect.w / 2, rect.h / 2);
    this.outline({ x: rect.x + inset, y: rect.y + inset, w: rect.w - 2 * inset, h: rect.h - 2 * inset }, colour, width);
  }

  /**
   * Two lines, so that it stands out from any colour.
   * @param {Rect} rect
   */
  chosen(rect) {
    this.outline(rect, this.look.colours.stage, 6);
    this.outline(rect, this.look.colours.selected, 3);
  }

  /**
   * What was cut so far, and the parts that the last cut leaves. They are marked by lines, so that boxes keep their colours.
   * @param {Cell} cell @param {Cut[]} cuts @param {View} view
   */
  drawParts(cell, cuts, view) {
    const { look } = this;
    for (const cut of cuts) {
      if (cut.room === cell.room) this.line(cut, cell, view, look.colours.ink, 1.6);
    }
    const last = cuts[cuts.length - 1];
    if (!last || last.room !== cell.room) return;
    const [lower, , upper] = partsOf(last);
    for (const [half, colour] of /** @type {[Part, string][]} */ ([[lower, look.colours.lower], [upper, look.colours.upper]])) {
      const rect = rectOf(half, cell, view);
      const width = Math.max(2, Math.min(6, Math.min(rect.w, rect.h) / 12));
      this.mark(rect, look.colours.stage, width + 2);
      this.mark(rect, colour, width);
    }
  }

  /** @param {Cut | undefined} cut @param {View} view */
  drawCut(cut, view) {
    const cell = cut && view.cells.find((it) => it.room === cut.room);
    if (!cut || !cell) return;
    this.outline(rectOf(cut, cell, view), this.look.colours.ink, 2);
    this.line(cut, cell, view, this.look.colours.stage, 6);
    this.line(cut, cell, view, this.look.colours.saw, 3.5);
  }

  /**
   * The line of a cut. One that is seen face on is a frame.
   * @param {Cut} cut @param {Cell} cell @param {View} view @param {string} colour @param {number} width
   */
  line(cut, cell, view, colour, width) {
    this.outline(rectOf(partsOf(cut)[1], cell, view), colour, width);
  }
}

/**
 * The boxes of a bin, those that are farther away first.
 * @param {Item[]} items @param {Room} room @param {View} view
 */
function behindFirst(items, room, view) {
  if (view.scene.isFlat) return items;
  return [...items].sort((a, b) => along(b, room, view.side.away) - along(a, room, view.side.away));
}

/**
 * The outline of a box that is gone: dashed, and crossed out.
 * @param {CanvasRenderingContext2D} context @param {Look} look @param {[number, number][]} corners
 */
function drawReleased(context, look, corners) {
  context.setLineDash([6, 4]);
  for (const [colour, width] of /** @type {[string, number][]} */ ([[look.colours.stage, 5], [look.colours.released, 2.5]])) {
    context.strokeStyle = colour;
    context.lineWidth = width;
    context.beginPath();
    corners.forEach(([x, y], index) => (index ? context.lineTo(x, y) : context.moveTo(x, y)));
    context.closePath();
    if (corners.length === 4) {
      context.moveTo(...corners[0]);
      context.lineTo(...corners[2]);
      context.moveTo(...corners[1]);
      context.lineTo(...corners[3]);
    }
    context.stroke();
  }
  context.setLineDash([]);
}

/**
 * The box at a point of the stage: of those behind one another the nearest.
 * @param {View} view @param {number} x @param {number} y @returns {Item | null}
 */
function flatItemAt(view, x, y) {
  for (const cell of view.cells) {
    const found = behindFirst(view.items.get(cell.room) || [], cell.room, view).filter((item) => {
      const rect = rectOf(item, cell, view);
      return x >= rect.x && x <= rect.x + rect.w && y >= rect.y && y <= rect.y + rect.h;
    });
    if (found.length) return found[found.length - 1];
  }
  return null;
}
