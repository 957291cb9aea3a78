// ---- Cuts: what is said of them, and where they are -------------------------------------------------------------------------

/**
 * What is cut, or what a cut leaves; and a step at the saw. Their numbers are texts, as they are written in a plan: they are
 * shown as they are.
 * @typedef {{role: "part" | "panel" | "offcut" | "waste", name?: string, width: string, height: string, turned?: boolean}} Piece
 * @typedef {{number: number, piece: Piece, axis: "x" | "y", at?: string, kerf: string, leaves: Piece[],
 *   edge?: "left" | "right" | "bottom" | "top", off?: string}} SawStep
 */

// A space at which no line ends: a number stays whole, with what it belongs to.
const FIRM = "\u00a0";

/** @param {Piece} piece */
function pieceTitle({ role, name }) {
  if (role === "part") return name || "";
  return name ? `${role} "${name}"` : role;
}

/**
 * What a piece is, and its size.
 * @param {Piece} piece
 */
function pieceText(piece) {
  const size = `${piece.width}${FIRM}×${FIRM}${piece.height}`;
  return [pieceTitle(piece), size, piece.turned ? "(turned)" : ""].filter((it) => it).join(" ");
}

/** @param {SawStep} step */
function doneText({ axis, at, edge, off }) {
  return edge ? `trim ${off} off the ${edge}` : `cut across ${axis} at${FIRM}${at}`;
}

/**
 * A step as the text of a plan has it, with a line for each piece that it leaves.
 * @param {SawStep} step
 */
function sawText(step) {
  const left = step.leaves.map((it) => `→ ${pieceText(it)}`);
  return [`${step.number}. ${pieceText(step.piece)}: ${doneText(step)}`, ...left].join("\n");
}

/**
 * A step in few words, the measure first: where there is no room for all, the end is left out.
 * @param {SawStep} step
 */
function briefText({ number, piece, axis, at, edge, off }) {
  return `${number}. ${edge ? `${off} off the ${edge}` : `${axis} at ${at}`} of ${pieceText(piece)}`;
}

/**
 * How a cut is measured, and what it leaves.
 * @param {Scene} scene @param {Cut} cut
 */
function spokenCut({ unit }, { step, count, room }) {
  const piece = pieceTitle(step.piece) || "the part";
  const takes = step.kerf === "0" ? "" : `, which takes the next ${step.kerf}${FIRM}${unit}`;
  const side = step.axis === "x" ? "left" : "lower";
  const said = step.edge
    ? `It takes ${step.off}${FIRM}${unit} off the ${step.edge} edge of ${piece}, the blade's width included`
    : `It is ${step.at}${FIRM}${unit} from the ${side} edge of ${piece} to the near side of the blade${takes}`;
  return `Cut ${step.number} of ${count} in ${room.name}. ${said}. It leaves ${step.leaves.map(pieceText).join(" and ")}.`;
}

/**
 * The part of a box from one place to another on an axis.
 * @param {Part} part @param {number} axis @param {number} from @param {number} to @returns {Part}
 */
function sliceOf(part, axis, from, to) {
  const [at, size] = [/** @type {Triple} */ ([...part.at]), /** @type {Triple} */ ([...part.size])];
  [at[axis], size[axis]] = [from, to - from];
  return { at, size };
}

/** @param {Part} part @param {Part} other */
function isInside(part, other) {
  return [0, 1, 2].every((axis) => (
    part.at[axis] >= other.at[axis] && part.at[axis] + part.size[axis] <= other.at[axis] + other.size[axis]
  ));
}

/**
 * The part before the blade, what this takes away, and the part behind it.
 * @param {Cut} cut @returns {[Part, Part, Part]}
 */
function partsOf(cut) {
  const { axis, blade: [near, far] } = cut;
  const [start, end] = [cut.at[axis], cut.at[axis] + cut.size[axis]];
  return [sliceOf(cut, axis, start, near), sliceOf(cut, axis, near, far), sliceOf(cut, axis, far, end)];
}
