// ---- Bins: one is chosen, and may be shown alone ----------------------------------------------------------------------------

/** Which bin is chosen among several, and whether it is shown alone. */
class Bins {
  /** @param {Page} page */
  constructor(page) {
    this.page = page;
    /** @type {Room | null} */
    this.chosen = null;
    /** @type {Room | null} */
    this.pointed = null;
    this.isAlone = false;
    // Whether a tip says what bin is chosen: it does where keys went to it.
    this.isTold = false;
  }

  reset() {
    [this.chosen, this.pointed, this.isAlone, this.isTold] = [null, null, false, false];
  }

  /** The bin that is shown alone. */
  get alone() {
    return this.isAlone ? this.chosen : null;
  }

  /** Whether there are others to be shown alone. */
  get isSeveral() {
    return this.page.scene.rooms.length > 1;
  }

  /** The bins that there are at the step that is shown. */
  there() {
    return this.page.scene.roomsAt(this.page.shownStep());
  }

  /** @param {Room} room */
  show(room) {
    if (!this.isSeveral) return;
    [this.chosen, this.pointed, this.isAlone, this.isTold] = [room, null, true, false];
    this.page.camera.reset();
    this.page.layout();
  }

  /** Shows the bin that is chosen, or else that of the chosen box, or the first. */
  showChosen() {
    if (this.isAlone) return;
    const { selected } = this.page;
    const room = this.chosen || (selected ? selected.room : this.there()[0]);
    if (room) this.show(room);
  }

  /** Shows all bins again. The one that was alone stays chosen. */
  showAll() {
    this.isAlone = false;
    this.page.camera.reset();
    this.page.layout();
  }

  /**
   * Goes to the next bin, or to the one before.
   * @param {number} way
   */
  next(way) {
    const rooms = this.there();
    if (!rooms.length) return;
    const at = this.chosen ? rooms.indexOf(this.chosen) : -1;
    const room = rooms[at < 0 ? (way > 0 ? 0 : rooms.length - 1) : (at + way + rooms.length) % rooms.length];
    if (this.isAlone) this.show(room);
    else this.choose(room);
  }

  /** @param {Room | null} room */
  choose(room) {
    [this.chosen, this.isTold] = [room, room !== null];
    if (room) this.page.reveal(room);
    this.page.changed();
  }

  /**
   * A bin that is alone gives way to the first of those in which something happens.
   * @param {Room[]} rooms
   */
  follow(rooms) {
    if (this.alone && rooms.length && !rooms.includes(this.alone)) this.show(rooms[0]);
  }

  /** Follows the step or the cut that is shown. */
  followStep() {
    const { scene, isCutting, cut, step } = this.page;
    const { placed, released } = scene.steps[step] || { placed: [], released: [] };
    const changed = isCutting ? scene.cuts.slice(Math.max(0, cut - 1), cut) : [...placed, ...released];
    this.follow(changed.map((it) => it.room));
  }

  /**
   * The bin at a point of the stage, with what stands above it.
   * @param {number} x @param {number} y @returns {Room | null}
   */
  at(x, y) {
    const { view } = this.page;
    const cell = view.cells.find((it) => {
      const rect = outerPlace(it, view);
      return x >= rect.x && x <= rect.x + rect.w && y >= rect.y && y <= rect.y + rect.h;
    });
    return cell ? cell.room : null;
  }
}

/**
 * The place of a bin with its caption, and a little round it.
 * @param {Cell} cell @param {View} view @returns {Rect}
 */
function outerPlace(cell, view) {
  const { zoom } = view.camera;
  const { x, y, w, h } = captionPlace(cell, view);
  const above = captionHeight(view.lines) * Math.min(1, zoom);
  return { x: x - 7, y: y - above - 2, w: captionWidth(w, zoom) + 9, h: h + above + 9 };
}

/**
 * Marks the bin that is chosen, and the one that the pointer is on.
 * @param {CanvasRenderingContext2D} context @param {Look} look @param {View} view
 */
function drawBinMarks(context, look, view) {
  for (const cell of view.cells) {
    if (cell.room !== view.bin && cell.room !== view.pointed) continue;
    const { x, y, w, h } = outerPlace(cell, view);
    context.strokeStyle = look.colours.accent;
    context.lineWidth = cell.room === view.bin ? 3 : 1.5;
    context.strokeRect(x, y, w, h);
  }
}

/**
 * A bin in one sentence.
 * @param {Page} page @param {Room} room
 */
function spokenBin(page, room) {
  const rooms = page.bins.there();
  const [caption] = page.view.captions.get(room) || [""];
  if (!rooms.includes(room)) return `${room.name}, not there yet`;
  const how = page.bins.isAlone ? "shown alone" : "Enter shows it alone";
  return `${room.name}, bin ${rooms.indexOf(room) + 1} of ${rooms.length}, ${caption.replace(/ · /g, ", ")}, ${how}`;
}

/**
 * The bar of a bin that is shown alone.
 * @param {Page} page
 */
function updateAlone(page) {
  const { alone } = page.bins;
  const rooms = page.bins.there();
  const bar = any("alone");
  if (!alone && bar.contains(document.activeElement)) page.flatCanvas.focus();
  bar.hidden = alone === null;
  if (alone) {
    const [caption] = page.view.captions.get(alone) || ["not there yet"];
    const rank = rooms.includes(alone) ? `${rooms.indexOf(alone) + 1} of ${rooms.length} · ` : "";
    const said = `${rank}${caption}`.replace(/ (?!·)/g, FIRM).replace(/·\u00a0/g, "· ");
    any("alone-name").replaceChildren(made("strong", alone.name), ` ${said}`);
  }
  updateBinTip(page);
}

/**
 * What is said of a bin beside it, as beside a pointer: of the one that is chosen by keys.
 * @param {Page} page
 */
function updateBinTip(page) {
  const { chosen, isTold } = page.bins;
  if (page.hovered || page.bins.pointed) return;
  const cell = isTold && page.view.cells.find((it) => it.room === chosen);
  if (!cell) {
    any("tip").hidden = true;
    return;
  }
  const { x, y, h } = outerPlace(cell, page.view);
  fillTip(binLines(page, cell.room, "Enter shows it alone"), x - 14, y + h - 12);
}

/**
 * What a tip says of a bin.
 * @param {Page} page @param {Room} room @param {string} how
 */
function binLines(page, room, how) {
  const [caption] = page.view.captions.get(room) || [""];
  return [made("strong", room.name), made("span", caption), made("span", how)];
}
