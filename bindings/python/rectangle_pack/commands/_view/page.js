// ---- What is shown, and what it follows from --------------------------------------------------------------------------------

const STILL = matchMedia("(prefers-reduced-motion: reduce)");
const DARK = matchMedia("(prefers-color-scheme: dark)");

/** The page: which scene, which step, which view of it. */
class Page {
  /** @param {RawScene[]} raws */
  constructor(raws) {
    this.raws = raws;
    this.flatCanvas = element("flat", HTMLCanvasElement);
    this.context = /** @type {CanvasRenderingContext2D} */ (this.flatCanvas.getContext("2d"));
    this.look = new Look();
    this.flat = new FlatPicture(this.context, this.look);
    this.flat.onImage = () => this.redraw();
    this.solids = new Solids(element("solid", HTMLCanvasElement));
    this.solids.onRestored = () => this.changed();
    this.overlay = new Overlay(this.context, this.look, this.flat.ruler);
    this.legend = new Legend(this.look, (groups, isShown) => this.showGroups(groups, isShown));
    this.table = new BoxTable((item) => this.select(item, true));
    this.camera = new Camera();
    this.turn = new Turn();
    this.bins = new Bins(this);
    this.scene = new Scene({ title: "", unit: "" });
    // The step that is shown; or in a cutting plan, how many cuts are done.
    this.step = 0;
    this.cut = 0;
    this.isCutting = false;
    // At first the picture is that of the whole: what the last step did is not marked.
    this.hasStepped = false;
    this.isTurned = false;
    this.sideName = "above";
    // How many layers there are to hide, and how many are hidden.
    this.layers = 0;
    this.peel = 0;
    /** @type {Item | null} */
    this.selected = null;
    /** @type {Item | null} */
    this.hovered = null;
    /** @type {Set<Item>} */
    this.hiddenItems = new Set();
    /** @type {Set<Group | null>} */
    this.hiddenGroups = new Set();
    this.query = "";
    /** @type {Cell[]} */
    this.cells = [];
    // How many lines there are above each bin.
    this.lines = 1;
    this.asked = { layout: true, view: true, frame: false };
    this.isMoving = false;
    this.settled = 0;
    this.spoken = 0;
    this.view = this.viewOf([], new Set());
    this.open(0);
  }

  /**
   * Shows a scene, from its last step.
   * @param {number} index
   */
  open(index) {
    this.scene = new Scene(this.raws[index]);
    [this.step, this.cut, this.isCutting] = [Math.max(0, this.scene.steps.length - 1), 0, false];
    this.isTurned = !this.scene.isFlat && this.solids.gl !== null;
    [this.sideName, this.layers, this.peel] = ["above", 0, 0];
    [this.selected, this.hovered, this.hasStepped] = [null, null, false];
    this.hiddenItems.clear();
    this.hiddenGroups.clear();
    this.bins.reset();
    this.camera.reset();
    this.turn.reset();
    this.fillPanels();
    this.layout();
  }

  fillPanels() {
    const { scene } = this;
    this.legend.fill(scene);
    this.table.fill(scene);
    fillTerms(any("facts"), scene.facts);
    any("facts-section").hidden = scene.facts.length === 0;
    any("layers").hidden = scene.isFlat;
    any("turned").hidden = scene.isFlat || this.solids.gl === null;
    any("cutting").hidden = scene.cuts.length === 0;
    any("pictures-field").hidden = !(scene.isFlat && scene.goesDown);
    any("free-field").hidden = scene.sections.length === 0;
    element("free", HTMLInputElement).checked = scene.isFlat;
    any("stepper").hidden = scene.steps.length < 2 && scene.cuts.length === 0;
    element("side-from", HTMLSelectElement).value = this.sideName;
    this.fillSteps();
  }

  fillSteps() {
    const list = element("steps", HTMLSelectElement);
    list.replaceChildren(...listEntries(this.scene, this.isCutting));
    [...list.options].forEach((option, index) => { [option.value, option.title] = [String(index), option.text]; });
    list.hidden = list.length < 2;
    const slider = element("slider", HTMLInputElement);
    slider.min = this.isCutting ? "0" : "1";
    slider.max = String(this.isCutting ? this.scene.cuts.length : this.scene.steps.length);
    slider.setAttribute("aria-label", this.isCutting ? "Cut" : "Step");
  }

  // ---- What is asked for is done once, before the next frame --------------------------------------------------------------

  /** The bins have to be put in place anew, and what is shown has changed. */
  layout() {
    this.asked.layout = true;
    this.changed();
  }

  /**
   * Turns the bins. They stand farther apart as they are seen more from above.
   * @param {number} yaw
   * @param {number} pitch
   */
  turnBy(yaw, pitch) {
    const before = Math.abs(this.turn.pitch);
    this.turn.by(yaw, pitch);
    if (Math.max(before, Math.abs(this.turn.pitch)) > PITCH) this.asked.layout = true;
    this.moving();
  }

  /** What is shown has changed. */
  changed() {
    this.asked.view = true;
    this.redraw();
  }

  redraw() {
    if (this.asked.frame) return;
    this.asked.frame = true;
    requestAnimationFrame(() => this.frame());
  }

  /** The picture moves: names of many boxes wait until it stands, and another box may be under the pointer. */
  moving() {
    [this.hovered, this.bins.pointed] = [null, null];
    any("tip").hidden = true;
    this.isMoving = true;
    clearTimeout(this.settled);
    this.settled = window.setTimeout(() => {
      this.isMoving = false;
      this.redraw();
      updateBinTip(this);
    }, 160);
    this.redraw();
  }

  frame() {
    this.asked.frame = false;
    const ratio = Math.min(3, window.devicePixelRatio || 1);
    const { clientWidth: width, clientHeight: height } = any("stage");
    for (const canvas of [this.flatCanvas, this.solids.canvas]) {
      const [w, h] = [Math.round(width * ratio), Math.round(height * ratio)];
      if (canvas.width !== w || canvas.height !== h) [canvas.width, canvas.height, this.asked.layout] = [w, h, true];
    }
    this.flush();
    this.draw(width, height, ratio);
  }

  /** Does now what is asked for, but for the drawing. */
  flush() {
    const { layout, view } = this.asked;
    this.asked.layout = this.asked.view = false;
    if (layout) this.arrange();
    if (layout || view) this.update(view);
  }

  /** Puts the bins in place: all, or the one that is alone, whose name stands in its bar. */
  arrange() {
    const { alone } = this.bins;
    this.lines = alone ? 0 : 1;
    this.cells = this.arrangedCells(alone ? [alone] : this.scene.rooms);
    // Where names need several lines, these get room. Bins are smaller then, and may need more of them.
    let needed = alone ? 0 : linesNeeded(this.context, this.cells);
    while (needed > this.lines) {
      this.lines = needed;
      this.cells = this.arrangedCells(this.scene.rooms);
      needed = linesNeeded(this.context, this.cells);
    }
    const least = Math.min(1, ...this.cells.map((cell) => cell.scale));
    this.camera.greatest = Math.min(this.isTurned ? 400 : 1e6, Math.max(16, 90 / Math.max(least, 1e-9)));
  }

  /** @param {Room[]} rooms */
  arrangedCells(rooms) {
    const { clientWidth: width, clientHeight: height } = any("stage");
    const caption = captionHeight(this.lines);
    if (this.isTurned) {
      const pitch = Math.max(PITCH, Math.abs(this.turn.pitch));
      const [first, now] = [PITCH, pitch].map((it) => rooms.map((room) => turnedExtent(room.size, it)));
      return arranged(rooms, first, now, width, height, caption);
    }
    const { right, up } = this.side();
    const extents = rooms.map((room) => /** @type {[number, number]} */ ([room.size[right[0]], room.size[up[0]]]));
    return arranged(rooms, extents, extents, width, height, caption);
  }

  side() {
    if (this.scene.isFlat) return this.scene.goesDown ? PAGE_SIDE : SIDES.front;
    return SIDES[this.sideName];
  }

  /** The step whose boxes are shown: a cutting plan is that of the end. */
  shownStep() {
    return this.isCutting ? Math.max(0, this.scene.steps.length - 1) : this.step;
  }

  /**
   * Makes what is drawn, and what the panels say.
   * @param {boolean} isChanged whether that is something else than before
   */
  update(isChanged) {
    const standing = this.scene.itemsAt(this.shownStep());
    const visible = new Set(this.unpeeled(standing).filter((item) => (
      !this.hiddenItems.has(item) && !this.hiddenGroups.has(item.group)
    )));
    if (this.hovered && !visible.has(this.hovered)) this.hovered = null;
    this.view = this.viewOf(standing, visible);
    if (this.isTurned) this.solids.take(this.view, this.look);
    if (isChanged) this.updatePanels(new Set(standing), visible);
  }

  /**
   * What is drawn of the boxes that stand in bins.
   * @param {Item[]} standing
   * @param {Set<Item>} visible
   * @returns {View}
   */
  viewOf(standing, visible) {
    const { scene } = this;
    const index = this.shownStep();
    const step = this.isCutting ? undefined : scene.steps[index];
    const rooms = new Set(scene.roomsAt(index));
    /** @param {string} id */
    const isChecked = (id) => element(id, HTMLInputElement).checked;
    return {
      scene, camera: this.camera, turn: this.turn, side: this.side(), isTurned: this.isTurned,
      cells: this.cells.filter((cell) => rooms.has(cell.room)), items: byRoom(visible), sections: scene.sectionsAt(index),
      placed: new Set(step && this.hasStepped ? step.placed : []), ghosts: step ? step.released : [],
      matches: this.matches(visible), hovered: this.hovered,
      selected: this.selected && visible.has(this.selected) ? this.selected : null,
      cuts: this.isCutting ? scene.cuts.slice(0, this.cut) : null,
      names: isChecked("names"), free: isChecked("free"), pictures: isChecked("pictures"),
      captions: captionsOf([...rooms], byRoom(new Set(standing)), scene), lines: this.lines,
      bin: this.bins.isAlone ? null : this.bins.chosen, pointed: this.bins.pointed,
    };
  }

  /**
   * The boxes that are left when the outer layers are hidden.
   * @param {Item[]} standing
   */
  unpeeled(standing) {
    const { away } = SIDES[this.sideName];
    const layers = [...new Set(standing.map((item) => along(item, item.room, away)))].sort((a, b) => a - b);
    this.layers = this.scene.isFlat ? 0 : Math.max(0, layers.length - 1);
    this.peel = Math.min(this.peel, this.layers);
    const first = layers[this.peel];
    return this.peel ? standing.filter((item) => along(item, item.room, away) >= first) : standing;
  }

  /** @param {Set<Item>} visible @returns {Set<Item> | null} */
  matches(visible) {
    const asked = this.query.trim().toLowerCase();
    if (!asked) return null;
    return new Set([...visible].filter((item) => item.name.toLowerCase().includes(asked)));
  }

  /** @param {number} width @param {number} height @param {number} ratio */
  draw(width, height, ratio) {
    const { context, view } = this;
    [view.hovered, view.pointed] = [this.hovered, this.bins.pointed];
    if (!this.hovered && !this.bins.pointed && !this.bins.isTold) any("tip").hidden = true;
    context.setTransform(ratio, 0, 0, ratio, 0, 0);
    context.clearRect(0, 0, width, height);
    [this.flat.width, this.flat.height] = [width, height];
    this.solids.canvas.hidden = !this.isTurned;
    if (this.isTurned) {
      this.solids.draw(view, this.look, ratio);
      this.overlay.draw(view, this.isMoving);
    } else {
      this.flat.draw(view);
    }
  }

  // ---- What can be done ----------------------------------------------------------------------------------------------------

  /** How many steps or cuts the slider has, and where it stands. */
  get place() {
    return this.isCutting ? this.cut : this.step;
  }

  get lastPlace() {
    return this.isCutting ? this.scene.cuts.length : Math.max(0, this.scene.steps.length - 1);
  }

  /**
   * Goes to a step, or to so many cuts.
   * @param {number} place
   */
  goTo(place) {
    const next = Math.min(this.lastPlace, Math.max(0, place));
    this.hasStepped = true;
    if (this.isCutting) this.cut = next;
    else this.step = next;
    this.bins.followStep();
    this.changed();
  }

  /**
   * Goes to the next step that changes something, or to the one before.
   * @param {number} way
   */
  goToChange(way) {
    let place = this.place + way;
    if (!this.isCutting) {
      const changes = (/** @type {Step} */ step) => step.placed.length + step.released.length > 0;
      while (place > 0 && place < this.lastPlace && !changes(this.scene.steps[place])) place += way;
    }
    this.goTo(place);
  }

  /** @param {boolean} isCutting */
  setCutting(isCutting) {
    if (!this.scene.cuts.length) return;
    this.isCutting = isCutting;
    const first = this.scene.cuts.findIndex((cut) => cut.room === this.bins.alone);
    this.cut = isCutting ? Math.max(0, first) + 1 : 0;
    if (isCutting) this.bins.followStep();
    this.fillSteps();
    this.changed();
  }

  /** @param {boolean} isTurned */
  setTurned(isTurned) {
    if (this.scene.isFlat || !this.solids.gl) return;
    this.isTurned = isTurned;
    this.camera.reset();
    this.layout();
  }

  /** @param {string} name */
  setSide(name) {
    this.sideName = name;
    this.peel = 0;
    element("side-from", HTMLSelectElement).value = name;
    this.layout();
  }

  /** @param {number} count */
  setPeel(count) {
    this.peel = Math.max(0, count);
    this.changed();
  }

  /** @param {number} factor */
  zoom(factor) {
    const { clientWidth, clientHeight } = any("stage");
    this.camera.zoomAt(clientWidth / 2, clientHeight / 2, factor);
    this.moving();
  }

  fit() {
    this.camera.reset();
    this.turn.reset();
    this.asked.layout = true;
    this.moving();
  }

  /** @param {Item | null} item @param {boolean} isFollowed whether the drawing moves to it */
  select(item, isFollowed) {
    this.selected = item;
    if (item && isFollowed) {
      this.bins.follow([item.room]);
      this.follow(item);
    }
    this.changed();
  }

  /**
   * Goes to the next box that is shown, or to the one before.
   * @param {number} way
   */
  selectNext(way) {
    const items = this.shownItems();
    this.select(nextOf(items, this.selected, way), true);
  }

  /**
   * Goes to the next box that is found.
   * @param {number} way
   */
  findNext(way) {
    this.flush();
    const found = this.view.matches;
    if (found && found.size) this.select(nextOf(this.foundItems(found), this.selected, way), true);
  }

  /**
   * The boxes that are found, bin by bin, also in bins that are not shown.
   * @param {Set<Item>} found
   */
  foundItems(found) {
    return this.bins.there().flatMap((room) => this.view.items.get(room) || []).filter((item) => found.has(item));
  }

  /** The boxes that are shown, bin by bin. */
  shownItems() {
    this.flush();
    const { view } = this;
    return view.cells.flatMap((cell) => view.items.get(cell.room) || []);
  }

  /** @param {string} query */
  search(query) {
    this.query = query;
    this.changed();
  }

  hideSelected() {
    if (!this.selected) return;
    const items = this.shownItems();
    const next = nextOf(items, this.selected, 1);
    this.hiddenItems.add(this.selected);
    this.select(next === this.selected ? null : next, false);
  }

  showAll() {
    this.hiddenItems.clear();
    this.hiddenGroups.clear();
    this.legend.showAll();
    this.setPeel(0);
  }

  /** @param {(Group | null)[]} groups @param {boolean} isShown */
  showGroups(groups, isShown) {
    for (const group of groups) {
      if (isShown) this.hiddenGroups.delete(group);
      else this.hiddenGroups.add(group);
    }
    this.changed();
  }

  /**
   * Moves the drawing so far that a box is inside.
   * @param {Item} item
   */
  follow(item) {
    this.flush();
    const at = this.middleOf(item);
    if (at) this.moveInside(at);
  }

  /**
   * Moves the drawing so far that a bin is inside, or that it begins there.
   * @param {Room} room
   */
  reveal(room) {
    this.flush();
    const cell = this.view.cells.find((it) => it.room === room);
    if (!cell) return;
    const { x, y, w, h } = outerPlace(cell, this.view);
    const { clientWidth, clientHeight } = any("stage");
    const [dx, dy] = [shiftInside(x, w, clientWidth), shiftInside(y, h, clientHeight)];
    if (dx || dy) this.glide(dx, dy);
  }

  /** @param {[number, number]} at a point of the stage */
  moveInside(at) {
    const { clientWidth: width, clientHeight: height } = any("stage");
    const inside = at[0] > 40 && at[1] > 40 && at[0] < width - 40 && at[1] < height - 40;
    if (!inside) this.glide(width / 2 - at[0], height / 2 - at[1]);
  }

  /**
   * The middle of a box on the stage.
   * @param {Item} item @returns {[number, number] | null}
   */
  middleOf(item) {
    const cell = this.cells.find((it) => it.room === item.room);
    if (!cell) return null;
    if (this.isTurned) {
      return new Sight(cell, this.view).at(/** @type {Triple} */ (item.at.map((it, axis) => it + item.size[axis] / 2)));
    }
    const rect = rectOf(item, cell, this.view);
    return [rect.x + rect.w / 2, rect.y + rect.h / 2];
  }

  /**
   * Shifts the drawing, in some frames, or at once where the reader wants no motion.
   * @param {number} dx @param {number} dy
   */
  glide(dx, dy) {
    const frames = STILL.matches ? 1 : 12;
    let left = frames;
    const step = () => {
      this.camera.shift(dx / frames, dy / frames);
      this.moving();
      left -= 1;
      if (left > 0) requestAnimationFrame(step);
    };
    step();
  }

  /** @param {boolean} isDark */
  setDark(isDark) {
    document.documentElement.dataset.theme = isDark ? "dark" : "light";
    this.followTheme();
  }

  /** Reads the colours of the theme, which is the one that was chosen, or that of the system. */
  followTheme() {
    element("theme", HTMLButtonElement).setAttribute("aria-pressed", String(this.isDark));
    this.look.refresh();
    this.legend.paint();
    this.changed();
  }

  get isDark() {
    const chosen = document.documentElement.dataset.theme;
    return chosen ? chosen === "dark" : DARK.matches;
  }

  /**
   * The box at a point of the stage.
   * @param {number} x @param {number} y
   */
  itemAt(x, y) {
    this.flush();
    return this.isTurned ? solidItemAt(this.view, x, y) : flatItemAt(this.view, x, y);
  }

  /** @param {Set<Item>} standing @param {Set<Item>} visible */
  updatePanels(standing, visible) {
    updateStep(this);
    updateBox(this, standing.size - visible.size);
    updateLayers(this);
    updateTable(this, standing, visible);
    updateAlone(this);
  }
}

/**
 * How far what begins at a place has to go so that it is inside.
 * @param {number} at @param {number} length @param {number} room
 */
function shiftInside(at, length, room) {
  return at < 0 ? -at : Math.min(0, Math.max(-at, room - at - length));
}

/**
 * The item after one, or before it, around the end.
 * @param {Item[]} items @param {Item | null} item @param {number} way
 */
function nextOf(items, item, way) {
  if (!items.length) return null;
  const at = item ? items.indexOf(item) : -1;
  if (at < 0) return items[way > 0 ? 0 : items.length - 1];
  return items[(at + way + items.length) % items.length];
}
