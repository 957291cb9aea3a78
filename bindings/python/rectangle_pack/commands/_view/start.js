// ---- The page begins --------------------------------------------------------------------------------------------------------

/** @param {string} id @param {() => void} run */
function onClick(id, run) {
  any(id).addEventListener("click", run);
}

/** @param {string} id @param {string} kind @param {(value: string) => void} run */
function onValue(id, kind, run) {
  any(id).addEventListener(kind, (event) => {
    const it = event.target;
    if (it instanceof HTMLInputElement || it instanceof HTMLSelectElement) run(it.value);
  });
}

/** @param {Page} page */
function followButtons(page) {
  onClick("first", () => page.goTo(0));
  onClick("back", () => page.goTo(page.place - 1));
  onClick("next", () => page.goTo(page.place + 1));
  onClick("last", () => page.goTo(page.lastPlace));
  onClick("cutting", () => page.setCutting(!page.isCutting));
  onClick("closer", () => page.zoom(1.4));
  onClick("farther", () => page.zoom(1 / 1.4));
  onClick("fit", () => page.fit());
  onClick("turned", () => page.setTurned(!page.isTurned));
  onClick("hide", () => page.hideSelected());
  onClick("show-all", () => page.showAll());
  onClick("all-bins", () => page.bins.showAll());
  onClick("bin-before", () => page.bins.next(-1));
  onClick("bin-after", () => page.bins.next(1));
  onClick("theme", () => page.setDark(!page.isDark));
  onClick("keys", () => showHelp(page));
  onClick("help-close", () => element("help", HTMLDialogElement).close());
  onValue("slider", "input", (value) => page.goTo(Number(value) - (page.isCutting ? 0 : 1)));
  onValue("steps", "change", (value) => page.goTo(Number(value)));
  onValue("side-from", "change", (value) => page.setSide(value));
  onValue("peel", "input", (value) => page.setPeel(Number(value)));
  for (const id of ["names", "free", "pictures"]) onValue(id, "change", () => page.changed());
}

/** @param {Page} page */
function followSearch(page) {
  onValue("query", "input", (value) => page.search(value));
  any("search").addEventListener("submit", (event) => event.preventDefault());
  any("query").addEventListener("keydown", (event) => {
    if (event.key !== "Enter") return;
    event.preventDefault();
    page.findNext(event.shiftKey ? -1 : 1);
  });
}

/** @param {Page} page @param {RawScene[]} scenes */
function followScenes(page, scenes) {
  const list = element("scene", HTMLSelectElement);
  list.replaceChildren(...scenes.map((scene, index) => new Option(scene.title, String(index))));
  any("scene-field").hidden = scenes.length < 2;
  list.title = list.selectedOptions[0]?.text || "";
  onValue("scene", "change", (value) => {
    list.title = list.selectedOptions[0]?.text || "";
    page.open(Number(value));
  });
}

function start() {
  /** @type {{scenes: RawScene[]}} */
  const { scenes } = JSON.parse(any("data").textContent || "");
  const page = new Page(scenes);
  followButtons(page);
  followSearch(page);
  followScenes(page, scenes);
  followKeys(page);
  followPointers(page);
  followTitles();
  DARK.addEventListener("change", () => page.followTheme());
  page.followTheme();
  new ResizeObserver(() => page.layout()).observe(any("stage"));
}

try {
  start();
} catch (error) {
  fillOrHide("empty", `The drawing cannot be shown: ${error}`);
  throw error;
}
