// ---- The panels follow what is shown ----------------------------------------------------------------------------------------

/**
 * Says something to who cannot see the drawing, once it no longer changes: of the step, and of the box that is chosen.
 * @param {Page} page @param {string} text
 */
function speak(page, text) {
  clearTimeout(page.spoken);
  page.spoken = window.setTimeout(() => {
    const box = page.selected ? spokenItem(page.selected, page.scene) : "";
    // What is the same is not said again.
    const bin = page.bins.chosen ? spokenBin(page, page.bins.chosen) : "";
    for (const [id, said] of [["status", text], ["spoken", box], ["spoken-bin", bin]]) {
      if (any(id).textContent !== said) any(id).textContent = said;
    }
  }, 120);
}

/** @param {string} id @param {string} text */
function fillOrHide(id, text) {
  const it = any(id);
  it.textContent = text;
  it.hidden = text === "";
}

/** @param {Page} page */
function updateStep(page) {
  const { scene, isCutting } = page;
  const step = scene.steps[page.shownStep()];
  const cut = isCutting && page.cut > 0 ? scene.cuts[page.cut - 1] : null;
  const slider = element("slider", HTMLInputElement);
  const at = isCutting ? page.cut : page.step + 1;
  slider.value = String(at);
  slider.setAttribute("aria-valuetext", isCutting ? `cut ${at} of ${slider.max}` : `step ${at} of ${slider.max}`);
  any("place").textContent = `${isCutting ? "cut " : ""}${at} / ${slider.max}`;
  const [isFirst, isLast] = [page.place === 0, page.place === page.lastPlace];
  for (const id of ["first", "back"]) element(id, HTMLButtonElement).setAttribute("aria-disabled", String(isFirst));
  for (const id of ["next", "last"]) element(id, HTMLButtonElement).setAttribute("aria-disabled", String(isLast));
  for (const id of ["ends", "slider", "place"]) any(id).hidden = page.lastPlace === 0;
  element("cutting", HTMLButtonElement).setAttribute("aria-pressed", String(isCutting));
  any("step-title").textContent = isCutting ? "Cut" : scene.steps.length > 1 ? "Step" : "Packing";
  any("command").classList.toggle("refused", !isCutting && step !== undefined && step.refused);
  fillOrHide("command", cut ? sawText(cut.step) : isCutting || !step ? "" : step.text);
  fillOrHide("answer", isCutting || !step ? "" : step.answer.join("\n"));
  fillOrHide("note", isCutting || !step ? "" : step.note);
  const list = element("steps", HTMLSelectElement);
  list.selectedIndex = page.place;
  speak(page, cut ? spokenCut(scene, cut) : isCutting ? "Before the first cut." : spokenStep(scene, page.shownStep()));
  updateEmpty(page);
}

/**
 * What is said where there is nothing to draw.
 * @param {Page} page
 */
function updateEmpty(page) {
  const { scene, view, bins: { alone } } = page;
  const isEmpty = view.cells.length === 0;
  const none = alone ? "This bin is not there yet." : scene.rooms.length ? "There is no bin yet." : "There is no bin.";
  fillOrHide("empty", isEmpty ? none : "");
  const boxes = page.shownItems();
  const shown = alone ? `bin ${alone.name} alone` : counted(view.cells.length, "bin", "bins");
  any("flat").setAttribute("aria-label", isEmpty ? "Drawing, empty" : `Drawing of ${shown} with ${
    counted(boxes.length, "box", "boxes")}`);
}

/** @param {Page} page @param {number} hidden */
function updateBox(page, hidden) {
  const { selected, scene } = page;
  any("no-box").hidden = selected !== null;
  any("box").hidden = selected === null;
  if (selected) fillTerms(any("box"), aboutItem(selected, scene));
  any("hide").hidden = page.view.selected === null;
  const all = any("show-all");
  all.hidden = hidden === 0;
  all.textContent = `Show all boxes (${hidden} hidden)`;
  const found = page.view.matches;
  const rank = found && selected && found.has(selected)
    ? `${page.foundItems(found).indexOf(selected) + 1} of ` : "";
  any("found").textContent = !found ? "" : found.size ? `${rank}${found.size}` : elsewhere(page);
}

/**
 * Where no box that is shown has the name.
 * @param {Page} page
 */
function elsewhere(page) {
  const asked = page.query.trim().toLowerCase();
  const others = page.scene.items.filter((item) => item.name.toLowerCase().includes(asked)).length;
  return others ? `none here, ${others} at other steps or hidden` : "none";
}

/** @param {Page} page */
function updateLayers(page) {
  const slider = element("peel", HTMLInputElement);
  const layers = page.layers;
  slider.max = String(layers);
  slider.value = String(page.peel);
  const count = page.shownItems().length + page.peel ? layers + 1 : 0;
  const text = page.peel ? `${page.peel} of ${count} hidden` : `${counted(count, "layer", "layers")}, none hidden`;
  any("peeled").textContent = text;
  slider.setAttribute("aria-valuetext", text);
  element("turned", HTMLButtonElement).setAttribute("aria-pressed", String(page.isTurned));
}

/** @param {Page} page @param {Set<Item>} standing @param {Set<Item>} visible */
function updateTable(page, standing, visible) {
  const { scene, view } = page;
  const after = scene.steps.length > 1 && !page.isCutting ? ` after step ${page.step + 1} of ${scene.steps.length}` : "";
  const places = page.isCutting ? "; X and Y count from the corner of the bin, and a cut from the edge of its part" : "";
  any("caption").textContent = `${counted(standing.size, "box", "boxes")}${after}, sizes in ${scene.unit}${places}`;
  page.table.update(standing, visible, view, page.selected);
}

/**
 * What stands beside the pointer.
 * @param {Page} page @param {number} x @param {number} y
 */
function updateTip(page, x, y) {
  const { hovered, scene, bins: { pointed } } = page;
  any("tip").hidden = hovered === null && pointed === null;
  if (pointed && !hovered) fillTip(binLines(page, pointed, "A click shows it alone"), x, y);
  if (!hovered) return;
  const lines = [measured(hovered.size, scene), `no. ${hovered.number}, at ${placeText(hovered.at, scene)}`];
  if (hovered.group) lines.push(`group ${hovered.group.name}`);
  if (hovered.note) lines.push(hovered.note);
  fillTip([made("strong", hovered.name), ...lines.map((line) => made("span", line))], x, y);
}

/**
 * Shows lines beside a point of the stage.
 * @param {HTMLElement[]} lines @param {number} x @param {number} y
 */
function fillTip(lines, x, y) {
  const tip = any("tip");
  tip.hidden = false;
  tip.replaceChildren(...lines);
  const { clientWidth: width, clientHeight: height } = any("stage");
  tip.style.left = `${Math.max(4, Math.min(x + 14, width - tip.offsetWidth - 4))}px`;
  tip.style.top = `${y + 18 + tip.offsetHeight > height ? Math.max(4, y - tip.offsetHeight - 10) : y + 18}px`;
}
