// ---- Colours, patterns and labels -------------------------------------------------------------------------------------------

/**
 * What is drawn.
 * @typedef {{scene: Scene, cells: Cell[], camera: Camera, turn: Turn, side: Side, isTurned: boolean,
 *   items: Map<Room, Item[]>, ghosts: Item[], sections: Map<Room, Section[]>, placed: Set<Item>, matches: Set<Item> | null,
 *   selected: Item | null, hovered: Item | null, cuts: Cut[] | null, names: boolean, free: boolean, pictures: boolean,
 *   captions: Map<Room, string[]>, lines: number, bin: Room | null, pointed: Room | null}} View
 */

const FILLS = 10;
const LABEL = { most: 13, least: 7.5 };
const FONT = "ui-monospace, 'DejaVu Sans Mono', Menlo, Consolas, monospace";
const PLAIN_FONT = "system-ui, 'DejaVu Sans', 'Segoe UI', sans-serif";

/** The colours that the style sheet has for the theme. */
function readColours() {
  const style = getComputedStyle(document.documentElement);
  /** @param {string} name */
  const of = (name) => style.getPropertyValue(`--${name}`).trim();
  return {
    ink: of("ink"), faint: of("faint"), stage: of("stage"), bin: of("bin"), wall: of("wall"), hatch: of("hatch"),
    line: of("line"), edge: of("edge"), label: of("label"), placed: of("placed"), released: of("released"), match: of("match"),
    selected: of("selected"), saw: of("saw"), lower: of("lower"), upper: of("upper"), alone: of("alone"), accent: of("accent"),
    groups: Array.from({ length: FILLS }, (_, index) => of(`group-${index}`)),
  };
}

/** The colours of the theme, and the patterns that are made of them. */
class Look {
  constructor() {
    this.colours = readColours();
    /** @type {Map<string, CanvasPattern | string>} */
    this.patterns = new Map();
  }

  /** Follows a change of the theme. */
  refresh() {
    this.colours = readColours();
    this.patterns.clear();
  }

  /** @param {Group | null} group */
  fill(group) {
    return group && !group.isAlone ? this.colours.groups[group.index % FILLS] : this.colours.alone;
  }

  /**
   * A pattern on the colour, where there are more groups than colours.
   * @param {Group | null} group
   */
  pattern(group) {
    return group && !group.isAlone ? Math.floor(group.index / FILLS) % 4 : 0;
  }

  /**
   * The colour with its pattern, for a drawing in two dimensions.
   * @param {CanvasRenderingContext2D} context @param {Group | null} group
   */
  paint(context, group) {
    const [colour, pattern] = [this.fill(group), this.pattern(group)];
    return pattern === 0 ? colour : this.tile(context, `${colour} ${pattern}`, colour, this.colours.edge, pattern);
  }

  /** @param {CanvasRenderingContext2D} context */
  freePaint(context) {
    return this.tile(context, "free", this.colours.bin, this.colours.hatch, 1);
  }

  /**
   * @param {CanvasRenderingContext2D} context @param {string} name @param {string} back @param {string} front
   * @param {number} pattern @returns {CanvasPattern | string}
   */
  tile(context, name, back, front, pattern) {
    const known = this.patterns.get(name);
    if (known) return known;
    const tile = document.createElement("canvas");
    tile.width = tile.height = 8;
    const inside = /** @type {CanvasRenderingContext2D} */ (tile.getContext("2d"));
    inside.fillStyle = back;
    inside.fillRect(0, 0, 8, 8);
    inside.strokeStyle = inside.fillStyle = front;
    inside.globalAlpha = name === "free" ? 1 : 0.3;
    drawTile(inside, pattern);
    const made = context.createPattern(tile, "repeat") || back;
    this.patterns.set(name, made);
    return made;
  }
}

/**
 * Slanting lines, dots, or upright lines.
 * @param {CanvasRenderingContext2D} context @param {number} pattern
 */
function drawTile(context, pattern) {
  context.lineWidth = 1.5;
  context.beginPath();
  if (pattern === 1) {
    for (const from of [-8, 0, 8]) {
      context.moveTo(from, 8);
      context.lineTo(from + 8, 0);
    }
    context.stroke();
  } else if (pattern === 2) {
    context.arc(4, 4, 1.8, 0, 2 * Math.PI);
    context.fill();
  } else {
    context.fillRect(3, 0, 2, 8);
  }
}

/**
 * A colour as three numbers from 0 to 1.
 * @param {string} colour @returns {Triple}
 */
function rgb(colour) {
  const value = parseInt(colour.slice(1), 16);
  return [(value >> 16) / 255, ((value >> 8) & 255) / 255, (value & 255) / 255];
}

/** How wide texts are, for one pixel of their size. */
class Ruler {
  /** @param {CanvasRenderingContext2D} context */
  constructor(context) {
    this.context = context;
    /** @type {Map<string, number>} */
    this.widths = new Map();
  }

  /** @param {string} text */
  width(text) {
    let width = this.widths.get(text);
    if (width === undefined) {
      this.context.save();
      this.context.font = `100px ${FONT}`;
      width = this.context.measureText(text).width / 100;
      this.context.restore();
      this.widths.set(text, width);
    }
    return width;
  }
}

/**
 * The text, cut off where it is wider than so many pixels.
 * @param {CanvasRenderingContext2D} context @param {string} text @param {number} width
 */
function shortened(context, text, width) {
  if (context.measureText(text).width <= width) return text;
  const count = fitting(context, text, width - context.measureText("…").width);
  return count > 0 ? `${text.slice(0, count)}…` : "";
}

/**
 * How many letters of the text are no wider than so many pixels.
 * @param {CanvasRenderingContext2D} context @param {string} text @param {number} width
 */
function fitting(context, text, width) {
  let [low, high] = [0, text.length];
  while (low < high) {
    const middle = Math.ceil((low + high) / 2);
    if (context.measureText(text.slice(0, middle)).width <= width) low = middle;
    else high = middle - 1;
  }
  return low;
}
