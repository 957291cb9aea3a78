// ---- Text beside the drawing: the step, the box ------------------------------------------------------------------------

/**
 * The element of this id.
 * @template {HTMLElement} T
 * @param {string} id @param {new () => T} kind @returns {T}
 */
function element(id, kind) {
  const found = document.getElementById(id);
  if (!(found instanceof kind)) throw new Error(`the page has no ${id}`);
  return found;
}

/** @param {string} id */
const any = (id) => element(id, HTMLElement);

/** @param {string} name @param {string} text @param {string} kind */
function made(name, text = "", kind = "") {
  const it = document.createElement(name);
  if (text) it.textContent = text;
  if (kind) it.className = kind;
  return it;
}

/**
 * Terms and what is said of them.
 * @param {HTMLElement} list @param {[string, string][]} rows
 */
function fillTerms(list, rows) {
  list.replaceChildren(...rows.flatMap(([term, text]) => [made("dt", term), made("dd", text)]));
}

/**
 * A size with its unit.
 * @param {Triple} size @param {Scene} scene
 */
function measured(size, scene) {
  return `${sizeText(size, scene)} ${scene.unit}`;
}

/** @param {Triple} at @param {Scene} scene */
function placeText(at, scene) {
  return (scene.isFlat ? at.slice(0, 2) : at).map((place) => lengthText(place, scene)).join(", ");
}

/**
 * What is said of a box.
 * @param {Item} item @param {Scene} scene @returns {[string, string][]}
 */
function aboutItem(item, scene) {
  /** @type {[string, string][]} */
  const rows = [
    ["Name", item.name], ["Size", measured(item.size, scene)], ["Bin", item.room.name], ["Corner", placeText(item.at, scene)],
    ["Number", item.number],
  ];
  if (item.group) rows.push(["Group", item.group.name]);
  if (item.note) rows.push(["Note", item.note]);
  if (scene.steps.length > 1) rows.push(["Placed", `step ${item.from + 1}`]);
  if (item.to !== Infinity) rows.push(["Released", `step ${item.to + 1}`]);
  return rows;
}

/**
 * The box in one sentence.
 * @param {Item} item @param {Scene} scene
 */
function spokenItem(item, scene) {
  const group = item.group ? `, group ${item.group.name}` : "";
  const note = item.note ? `, ${item.note}` : "";
  return `${item.name}, ${measured(item.size, scene)}, number ${item.number}${group}, in ${item.room.name} at ${
    placeText(item.at, scene)}${note}`;
}

/**
 * What a step does, in words.
 * @param {Scene} scene @param {number} index
 */
function spokenStep(scene, index) {
  const step = scene.steps[index];
  const items = scene.itemsAt(index);
  const rooms = new Set(items.map((item) => item.room)).size;
  const said = [];
  if (step && scene.steps.length > 1) said.push(`Step ${index + 1} of ${scene.steps.length}`);
  if (step && step.refused) said.push("refused, nothing changes");
  if (step && scene.steps.length > 1 && step.placed.length) {
    said.push(`${counted(step.placed.length, "box is", "boxes are")} placed`);
  }
  if (step && step.released.length) said.push(`${counted(step.released.length, "box is", "boxes are")} released`);
  const where = `${counted(items.length, "box stands", "boxes stand")} in ${counted(rooms, "bin", "bins")}`;
  said.push(items.length ? where : "no box stands in a bin");
  return `${said.join(". ")}.`.replace(/(^|\. )([a-z])/g, (_, before, letter) => before + letter.toUpperCase());
}

/**
 * The entries of all steps or cuts, for their list. Cuts stand below their bins.
 * @param {Scene} scene @param {boolean} isCutting
 */
function listEntries(scene, isCutting) {
  if (!isCutting) {
    return scene.steps.map(({ text, refused }, index) => new Option(`${index + 1}. ${text}${refused ? " (refused)" : ""}`));
  }
  const bins = [...byRoom(scene.cuts)].map(([room, cuts]) => {
    const bin = document.createElement("optgroup");
    bin.label = room.name;
    bin.append(...cuts.map((cut) => new Option(briefText(cut.step))));
    return bin;
  });
  return [new Option("before the first cut"), ...bins];
}
