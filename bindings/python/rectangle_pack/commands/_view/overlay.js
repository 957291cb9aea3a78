// ---- What stands over the drawing in three dimensions: frames, marks, and which box is at a point ---------------------------

/** How a bin is seen at this turn and zoom. */
class Sight {
  /** @param {Cell} cell @param {View} view */
  constructor(cell, view) {
    this.cell = cell;
    this.rows = view.turn.rows();
    this.camera = view.camera;
    this.middle = /** @type {Triple} */ (cell.room.size.map((side) => side / 2));
  }

  /**
   * Where a point of the bin is on the stage.
   * @param {Triple} point @returns {[number, number]}
   */
  at(point) {
    const { cell, camera, rows: [right, up], middle } = this;
    const from = /** @type {Triple} */ ([point[0] - middle[0], point[1] - middle[1], point[2] - middle[2]]);
    const x = cell.x + dot(right, from) * cell.scale;
    const y = cell.y - dot(up, from) * cell.scale;
    return [x * camera.zoom + camera.x, y * camera.zoom + camera.y];
  }

  /**
   * The point of the bin's middle plane that is at a point of the stage.
   * @param {number} x @param {number} y @returns {Triple}
   */
  point(x, y) {
    const { cell, camera, rows: [right, up], middle } = this;
    const [px, py] = camera.toPage(x, y);
    const [u, v] = [(px - cell.x) / cell.scale, (cell.y - py) / cell.scale];
    return [middle[0] + u * right[0] + v * up[0], middle[1] + u * right[1] + v * up[1], middle[2] + u * right[2] + v * up[2]];
  }

  /** The far ends of the three faces that look at the viewer: 1 where that is the face at the greater place. */
  near() {
    return this.rows[2].map((it) => (it < 0 ? 1 : 0));
  }

  /**
   * The faces of a part that look at the viewer, each with its axis.
   * @param {Part} part
   */
  faces(part) {
    const near = this.near();
    return [0, 1, 2].filter((axis) => Math.abs(this.rows[2][axis]) > 1e-6).map((axis) => {
      const [u, v] = [(axis + 1) % 3, (axis + 2) % 3];
      const corners = [[0, 0], [1, 0], [1, 1], [0, 1]].map(([i, j]) => {
        const corner = /** @type {Triple} */ ([...part.at]);
        corner[axis] += near[axis] * part.size[axis];
        corner[u] += i * part.size[u];
        corner[v] += j * part.size[v];
        return this.at(corner);
      });
      return { axis, corners };
    });
  }
}

/**
 * How far along a ray a part begins; none where the ray does not meet it.
 * @param {Triple} from @param {Triple} way @param {Part} part @returns {[number, number] | null}
 */
function crossing(from, way, part) {
  let [low, high] = [-Infinity, Infinity];
  for (const axis of [0, 1, 2]) {
    const [start, end] = [part.at[axis] - from[axis], part.at[axis] + part.size[axis] - from[axis]];
    if (Math.abs(way[axis]) < 1e-12) {
      if (start > 0 || end < 0) return null;
    } else {
      const [a, b] = [start / way[axis], end / way[axis]];
      low = Math.max(low, Math.min(a, b));
      high = Math.min(high, Math.max(a, b));
    }
  }
  return low <= high ? [low, high] : null;
}

/**
 * The nearest box at a point of the stage.
 * @param {View} view @param {number} x @param {number} y @returns {Item | null}
 */
function solidItemAt(view, x, y) {
  let found = null;
  let nearest = Infinity;
  for (const cell of view.cells) {
    const sight = new Sight(cell, view);
    const from = sight.point(x, y);
    if (!crossing(from, sight.rows[2], wholeOf(cell.room))) continue;
    for (const item of view.items.get(cell.room) || []) {
      const met = crossing(from, sight.rows[2], item);
      if (met && met[0] * cell.scale < nearest) [found, nearest] = [item, met[0] * cell.scale];
    }
  }
  return found;
}

/** Draws over the solids. */
class Overlay {
  /** @param {CanvasRenderingContext2D} context @param {Look} look @param {Ruler} ruler */
  constructor(context, look, ruler) {
    this.context = context;
    this.look = look;
    this.names = new Names(context, look, ruler);
  }

  /** @param {View} view @param {boolean} isMoving */
  draw(view, isMoving) {
    for (const cell of view.cells) {
      const sight = new Sight(cell, view);
      const items = view.items.get(cell.room) || [];
      if (view.names && !(isMoving && items.length > 400)) this.names.draw(sight, items, view);
      this.drawFrame(sight);
      if (view.free) this.drawSections(sight, view);
      for (const ghost of view.ghosts) if (ghost.room === cell.room) this.drawGhost(sight, ghost);
      if (view.cuts) this.drawCuts(sight, view.cuts);
      for (const item of items) {
        if (item === view.hovered) this.drawBox(sight, item, this.look.colours.selected, 2);
        if (item === view.selected) this.drawBox(sight, item, this.look.colours.selected, 3.5);
      }
      drawCaption(this.context, this.look, cell, captionPlace(cell, view), view);
    }
    drawBinMarks(this.context, this.look, view);
  }

  /**
   * The edges of a bin that look at the viewer.
   * @param {Sight} sight
   */
  drawFrame(sight) {
    for (const { corners } of sight.faces(wholeOf(sight.cell.room))) this.polygon(corners, this.look.colours.line, 1, "", 0.45);
  }

  /**
   * @param {[number, number][]} corners @param {string} line @param {number} width @param {string} fill
   * @param {number} alpha
   */
  polygon(corners, line, width, fill = "", alpha = 1) {
    const { context } = this;
    context.globalAlpha = alpha;
    context.beginPath();
    corners.forEach(([x, y], index) => (index ? context.lineTo(x, y) : context.moveTo(x, y)));
    context.closePath();
    if (fill) {
      context.fillStyle = fill;
      context.fill();
    }
    if (width) {
      context.lineJoin = "round";
      context.strokeStyle = line;
      context.lineWidth = width;
      context.stroke();
    }
    context.globalAlpha = 1;
  }

  /** @param {Sight} sight @param {Part} part @param {string} colour @param {number} width */
  drawBox(sight, part, colour, width) {
    const faces = sight.faces(part);
    for (const { corners } of faces) this.polygon(corners, this.look.colours.stage, width + 3);
    for (const { corners } of faces) this.polygon(corners, colour, width);
  }

  /** @param {Sight} sight @param {View} view */
  drawSections(sight, view) {
    this.context.setLineDash([5, 4]);
    for (const section of view.sections.get(sight.cell.room) || []) {
      for (const { corners } of sight.faces(section)) this.polygon(corners, this.look.colours.faint, 1);
    }
    this.context.setLineDash([]);
  }

  /** @param {Sight} sight @param {Part} part */
  drawGhost(sight, part) {
    for (const { corners } of sight.faces(part)) drawReleased(this.context, this.look, corners);
  }

  /** @param {Sight} sight @param {Cut[]} cuts */
  drawCuts(sight, cuts) {
    const { look, context } = this;
    const here = cuts.filter((cut) => cut.room === sight.cell.room);
    for (const cut of here) this.polygon(planeCorners(sight, cut), look.colours.ink, 1.2);
    const last = cuts[cuts.length - 1];
    if (!last || last.room !== sight.cell.room) return;
    const [lower, , upper] = partsOf(last);
    this.drawBox(sight, lower, look.colours.lower, 3);
    this.drawBox(sight, upper, look.colours.upper, 3);
    context.setLineDash([10, 4]);
    this.polygon(planeCorners(sight, last), look.colours.saw, 3.5);
    context.setLineDash([]);
  }
}

/** @param {Sight} sight @param {Cut} cut */
function planeCorners(sight, cut) {
  const [, plane] = partsOf(cut);
  const [u, v] = [(cut.axis + 1) % 3, (cut.axis + 2) % 3];
  return [[0, 0], [1, 0], [1, 1], [0, 1]].map(([i, j]) => {
    const corner = /** @type {Triple} */ ([...plane.at]);
    corner[u] += i * plane.size[u];
    corner[v] += j * plane.size[v];
    return sight.at(corner);
  });
}

/**
 * The place above a bin, as it stands now.
 * @param {Cell} cell @param {View} view @returns {Rect}
 */
function captionPlace(cell, view) {
  const { zoom, x, y } = view.camera;
  const [w, h] = [cell.width * zoom, cell.height * zoom];
  return { x: cell.x * zoom + x - w / 2, y: cell.y * zoom + y - h / 2, w, h };
}
