// ---- What stands above a bin: its name, and how full it is ------------------------------------------------------------------

const CAPTION = 22;
const LINE = 15;
// A name goes on so many lines at most, and one more is left for how full the bin is.
const MOST_LINES = 3;
const NAME_FONT = `600 13px ${PLAIN_FONT}`;
// A name on several lines is a little smaller.
const LINES_FONT = `600 12px ${PLAIN_FONT}`;
const REST_FONT = `12px ${PLAIN_FONT}`;
// What has to have room beside a name, or below it.
const USUAL_FILLED = "99.9 % filled";

/**
 * How high a caption of so many lines is.
 * @param {number} lines
 */
function captionHeight(lines) {
  return CAPTION + LINE * (lines - 1);
}

/**
 * How wide the caption of a bin may be that is so wide itself.
 * @param {number} width @param {number} zoom
 */
function captionWidth(width, zoom) {
  return Math.max(width, NARROWEST * zoom) + GAP / 2;
}

/**
 * The text in lines that are no wider than this, broken at blanks where there are some. The last one is cut off where there are
 * too many.
 * @param {CanvasRenderingContext2D} context @param {string} text @param {number} width @param {number} most
 */
function wrapped(context, text, width, most) {
  const lines = [];
  let rest = text;
  while (lines.length < most - 1 && context.measureText(rest).width > width) {
    const fits = Math.max(1, fitting(context, rest, width));
    const blank = rest.lastIndexOf(" ", fits);
    const end = blank > fits / 3 ? blank : fits;
    lines.push(rest.slice(0, end).trimEnd());
    rest = rest.slice(end).trimStart();
  }
  return [...lines, shortened(context, rest, width)];
}

/**
 * The name of a bin in lines, and whether what follows has room behind it.
 * @param {CanvasRenderingContext2D} context @param {string} name @param {number} width @param {number} most
 */
function nameLines(context, name, width, most) {
  context.font = NAME_FONT;
  const isShort = most === 1 || context.measureText(name).width <= width;
  context.font = isShort ? NAME_FONT : LINES_FONT;
  const lines = isShort ? [shortened(context, name, width)] : wrapped(context, name, width, most);
  return { lines, font: context.font, used: context.measureText(lines[lines.length - 1]).width + 10 };
}

/**
 * How many lines the captions of bins need, as they are drawn at zoom 1.
 * @param {CanvasRenderingContext2D} context @param {Cell[]} cells
 */
function linesNeeded(context, cells) {
  return cells.reduce((most, cell) => {
    const width = captionWidth(cell.width, 1);
    const { lines, used } = nameLines(context, cell.room.name, width, MOST_LINES);
    context.font = REST_FONT;
    const isAlone = context.measureText(USUAL_FILLED).width > width - used;
    return Math.max(most, lines.length + (isAlone ? 1 : 0));
  }, 1);
}

/**
 * What a bin is called and how full it is, above it.
 * @param {CanvasRenderingContext2D} context @param {Look} look @param {Cell} cell @param {Rect} bin @param {View} view
 */
function drawCaption(context, look, cell, bin, view) {
  const { zoom } = view.camera;
  const width = captionWidth(bin.w, zoom);
  if (width < 30 || view.lines === 0) return;
  // A drawing that is made smaller has room for fewer lines.
  const room = Math.max(1, Math.floor(1 + (captionHeight(view.lines) * Math.min(1, zoom) - CAPTION) / LINE));
  context.textAlign = "left";
  context.textBaseline = "alphabetic";
  const { lines, font, used } = nameLines(context, cell.room.name, width, Math.max(1, Math.min(MOST_LINES, room)));
  const texts = view.captions.get(cell.room) || [];
  context.font = REST_FONT;
  const behind = texts.find((text) => context.measureText(text).width <= width - used);
  const below = behind || lines.length >= room ? "" : texts.find((text) => context.measureText(text).width <= width) || "";
  const first = bin.y - 7 - LINE * (lines.length - 1 + (below ? 1 : 0));
  context.fillStyle = look.colours.faint;
  if (behind) context.fillText(behind, bin.x + used, bin.y - 7);
  if (below) context.fillText(below, bin.x, bin.y - 7);
  context.font = font;
  context.fillStyle = look.colours.ink;
  lines.forEach((line, index) => context.fillText(line, bin.x, first + LINE * index));
}

/**
 * What is said above each bin, in less and less words.
 * @param {Room[]} rooms @param {Map<Room, Item[]>} items @param {Scene} scene @returns {Map<Room, string[]>}
 */
function captionsOf(rooms, items, scene) {
  return new Map(rooms.map((room) => {
    const inside = items.get(room) || [];
    const [size, filled] = [sizeText(room.size, scene), filledText(room, inside)];
    return [room, [`${size} · ${filled} · ${counted(inside.length, "box", "boxes")}`, `${size} · ${filled}`, filled]];
  }));
}
