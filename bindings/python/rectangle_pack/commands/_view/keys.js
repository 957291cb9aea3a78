// ---- Keys -------------------------------------------------------------------------------------------------------------------

/**
 * What a key does: the keys as events name them, as people read them, what it does, and where it is of use.
 * @typedef {{keys: string[], shown: string, text: string, run: (page: Page, event: KeyboardEvent) => void,
 *   isThere?: (page: Page) => boolean}} Key
 */

const TURN = 0.12;
const SHIFT = 40;
/** @type {Map<string, [number, number]>} */
const ARROWS = new Map([["ArrowLeft", [1, 0]], ["ArrowRight", [-1, 0]], ["ArrowUp", [0, 1]], ["ArrowDown", [0, -1]]]);

/** @param {Page} page */
const hasDepth = (page) => !page.scene.isFlat;
/** @param {Page} page */
const hasSteps = (page) => page.scene.steps.length > 1 || page.scene.cuts.length > 0;
/** @param {Page} page */
const hasSections = (page) => page.scene.sections.length > 0;
/** @param {Page} page */
const hasCuts = (page) => page.scene.cuts.length > 0;

/** @param {Page} page */
const hasBins = (page) => page.bins.isSeveral;

/** @type {Key[]} */
const KEYS = [
  { keys: ["n"], shown: "N", text: "next step", run: (page) => page.goTo(page.place + 1), isThere: hasSteps },
  { keys: ["p"], shown: "P", text: "step back", run: (page) => page.goTo(page.place - 1), isThere: hasSteps },
  { keys: ["N"], shown: "Shift N", text: "next step with a change", run: (page) => page.goToChange(1), isThere: hasSteps },
  { keys: ["P"], shown: "Shift P", text: "back to such a step", run: (page) => page.goToChange(-1), isThere: hasSteps },
  { keys: ["Home"], shown: "Home", text: "first step", run: (page) => page.goTo(0), isThere: hasSteps },
  { keys: ["End"], shown: "End", text: "last step", run: (page) => page.goTo(page.lastPlace), isThere: hasSteps },
  { keys: ["c"], shown: "C", text: "cutting plan", run: (page) => page.setCutting(!page.isCutting), isThere: hasCuts },
  { keys: ["j"], shown: "J", text: "next box", run: (page) => page.selectNext(1) },
  { keys: ["k"], shown: "K", text: "the box before", run: (page) => page.selectNext(-1) },
  { keys: ["b"], shown: "B", text: "next bin", run: (page) => page.bins.next(1), isThere: hasBins },
  { keys: ["B"], shown: "Shift B", text: "the bin before", run: (page) => page.bins.next(-1), isThere: hasBins },
  { keys: ["Enter"], shown: "Enter", text: "show one bin alone; Left and Right go to others then", run: openBin, isThere: hasBins },
  { keys: ["/"], shown: "/", text: "find a name; Enter goes to the next that is found", run: () => any("query").focus() },
  { keys: ["+", "="], shown: "+", text: "zoom in", run: (page) => page.zoom(1.25) },
  { keys: ["-"], shown: "−", text: "zoom out", run: (page) => page.zoom(0.8) },
  { keys: ["0"], shown: "0", text: "fit the drawing", run: (page) => page.fit() },
  { keys: [...ARROWS.keys()], shown: "Arrows", text: "shift the drawing; turn it in 3D, and shift it with Shift", run: arrow },
  { keys: [","], shown: ",", text: "turn to the left", run: (page) => page.turnBy(TURN, 0), isThere: hasDepth },
  { keys: ["."], shown: ".", text: "turn to the right", run: (page) => page.turnBy(-TURN, 0), isThere: hasDepth },
  { keys: ["v"], shown: "V", text: "3D, or from a side", run: (page) => page.setTurned(!page.isTurned), isThere: hasDepth },
  { keys: ["l"], shown: "L", text: "hide one layer more", run: (page) => page.setPeel(page.peel + 1), isThere: hasDepth },
  { keys: ["L"], shown: "Shift L", text: "one layer less", run: (page) => page.setPeel(page.peel - 1), isThere: hasDepth },
  { keys: ["s"], shown: "S", text: "the next side from which layers are hidden", run: nextSide, isThere: hasDepth },
  { keys: ["h"], shown: "H", text: "hide the box that is chosen", run: (page) => page.hideSelected() },
  { keys: ["H"], shown: "Shift H", text: "show all boxes", run: (page) => page.showAll() },
  { keys: ["m"], shown: "M", text: "names, on and off", run: () => any("names").click() },
  { keys: ["f"], shown: "F", text: "free sections, on and off", run: () => any("free").click(), isThere: hasSections },
  { keys: ["t"], shown: "T", text: "go to the table", run: toTable },
  { keys: ["g"], shown: "G", text: "go to the drawing", run: () => any("flat").focus() },
  { keys: ["d"], shown: "D", text: "light or dark", run: (page) => page.setDark(!page.isDark) },
  { keys: ["?"], shown: "?", text: "these keys", run: showHelp },
  { keys: ["Escape"], shown: "Esc", text: "end the search, show all bins, choose nothing", run: leave },
];

/** @param {Page} page @param {KeyboardEvent} event */
function arrow(page, event) {
  const [x, y] = ARROWS.get(event.key) || [0, 0];
  if (page.bins.isAlone && x !== 0 && !event.shiftKey) {
    page.bins.next(-x);
  } else if (page.isTurned && !event.shiftKey) {
    page.turnBy(x * TURN, y * TURN);
  } else {
    page.camera.shift(x * SHIFT, y * SHIFT);
    page.moving();
  }
}

/** @param {Page} page */
function openBin(page) {
  page.bins.showChosen();
}

/** @param {Page} page */
function nextSide(page) {
  const sides = [...element("side-from", HTMLSelectElement).options].map((option) => option.value);
  page.setSide(sides[(sides.indexOf(page.sideName) + 1) % sides.length]);
}

/** @param {Page} page */
function toTable(page) {
  const row = page.table.table.querySelector("tbody [tabindex='0']");
  (row instanceof HTMLElement ? row : any("list")).focus();
}

/** @param {Page} page */
function showHelp(page) {
  const rows = KEYS.filter((key) => !key.isThere || key.isThere(page)).map(({ shown, text }) => {
    const row = made("div");
    const term = made("dt");
    term.append(made("kbd", shown));
    row.append(term, made("dd", text));
    return row;
  });
  any("help-keys").replaceChildren(...rows);
  element("help", HTMLDialogElement).showModal();
}

/** @param {Page} page */
function leave(page) {
  const query = element("query", HTMLInputElement);
  if (page.query) {
    query.value = "";
    page.search("");
  } else if (page.bins.isAlone) {
    page.bins.showAll();
  } else {
    page.bins.choose(null);
    page.select(null, false);
  }
  page.flatCanvas.focus();
}

/**
 * Whether the element that has the focus takes the key itself.
 * @param {Element | null} at @param {string} key
 */
function takesKey(at, key) {
  if (key === "Escape") return false;
  if (at instanceof HTMLSelectElement || at instanceof HTMLTextAreaElement) return true;
  const isArrow = key.startsWith("Arrow") || key === "Home" || key === "End";
  const root = document.documentElement;
  if (key === "Enter" && at !== null && at !== document.body) return at.id !== "flat";
  if (at === document.body || at === null) return isArrow && root.scrollHeight > root.clientHeight;
  if (at instanceof HTMLInputElement) return at.type === "range" ? isArrow : at.type !== "checkbox";
  return isArrow && at.closest("#list, #answer, #side") !== null;
}

/** @param {Page} page */
function followKeys(page) {
  document.addEventListener("keydown", (event) => {
    const isLetter = event.key.length === 1;
    if (event.ctrlKey || event.altKey || event.metaKey || event.defaultPrevented) return;
    if (element("help", HTMLDialogElement).open || takesKey(document.activeElement, event.key)) return;
    if (isLetter && !element("letters", HTMLInputElement).checked && event.key !== "?") return;
    const key = KEYS.find((it) => it.keys.includes(event.key));
    if (!key || (key.isThere && !key.isThere(page))) return;
    event.preventDefault();
    key.run(page, event);
  });
}
