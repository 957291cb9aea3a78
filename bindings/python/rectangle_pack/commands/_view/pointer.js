// ---- Mouse, pen and fingers -------------------------------------------------------------------------------------------------

/** Follows pointers on the drawing: one shifts or turns it, two zoom it. */
class Pointers {
  /** @param {Page} page */
  constructor(page) {
    this.page = page;
    /** @type {Map<number, {x: number, y: number}>} */
    this.down = new Map();
    this.way = 0;
    const canvas = page.flatCanvas;
    canvas.addEventListener("pointerdown", (event) => this.press(event));
    canvas.addEventListener("pointermove", (event) => this.move(event));
    canvas.addEventListener("pointerup", (event) => this.lift(event));
    canvas.addEventListener("pointercancel", (event) => this.down.delete(event.pointerId));
    canvas.addEventListener("pointerleave", (event) => event.pointerType === "mouse" && this.point(null, 0, 0));
    canvas.addEventListener("contextmenu", (event) => event.preventDefault());
    canvas.addEventListener("wheel", (event) => this.wheel(event), { passive: false });
  }

  /** @param {PointerEvent} event */
  press(event) {
    this.down.set(event.pointerId, { x: event.offsetX, y: event.offsetY });
    this.page.flatCanvas.setPointerCapture(event.pointerId);
    if (this.down.size === 1) this.way = 0;
  }

  /** @param {PointerEvent} event */
  move(event) {
    const { page } = this;
    const [x, y] = [event.offsetX, event.offsetY];
    const before = this.down.get(event.pointerId);
    if (!before) {
      this.point(page.itemAt(x, y), x, y, page.bins.isSeveral && !page.bins.isAlone ? page.bins.at(x, y) : null);
      return;
    }
    const [dx, dy] = [x - before.x, y - before.y];
    this.way += Math.abs(dx) + Math.abs(dy);
    if (this.way < 4) return;
    const isOther = event.shiftKey || event.buttons === 2 || event.buttons === 4;
    if (this.down.size === 2) this.pinch(event.pointerId, x, y);
    else if (page.isTurned && !isOther) page.turnBy(-dx * 0.008, dy * 0.008);
    else page.camera.shift(dx, dy);
    this.down.set(event.pointerId, { x, y });
    this.point(null, 0, 0);
    page.moving();
  }

  /**
   * Two fingers: the drawing follows their middle and their distance.
   * @param {number} id @param {number} x @param {number} y
   */
  pinch(id, x, y) {
    const ids = [...this.down.keys()];
    const other = this.down.get(ids[0] === id ? ids[1] : ids[0]);
    const before = this.down.get(id);
    if (!other || !before) return;
    const [was, is] = [Math.hypot(before.x - other.x, before.y - other.y), Math.hypot(x - other.x, y - other.y)];
    this.page.camera.shift((x - before.x) / 2, (y - before.y) / 2);
    if (was > 0) this.page.camera.zoomAt((x + other.x) / 2, (y + other.y) / 2, is / was);
  }

  /** @param {PointerEvent} event */
  lift(event) {
    const wasOne = this.down.size === 1;
    this.down.delete(event.pointerId);
    if (wasOne && this.way < 4) {
      this.click(event);
    }
  }

  /**
   * Chooses the box that is there. Where several bins are shown, the one that is there is then alone.
   * @param {PointerEvent} event
   */
  click({ offsetX: x, offsetY: y, pointerType }) {
    const { page } = this;
    const item = page.itemAt(x, y);
    const room = page.bins.isAlone ? null : page.bins.at(x, y);
    page.select(item, false);
    if (room && page.bins.isSeveral) {
      this.point(null, 0, 0);
      page.bins.show(room);
    } else if (pointerType !== "mouse") {
      this.point(item, x, y);
    }
  }

  /** @param {Item | null} item @param {number} x @param {number} y @param {Room | null} room */
  point(item, x, y, room = null) {
    const { page } = this;
    if (item !== page.hovered || room !== page.bins.pointed) page.redraw();
    [page.hovered, page.bins.pointed] = [item, room];
    page.flatCanvas.classList.toggle("opens", room !== null);
    updateTip(page, x, y);
  }

  /** @param {WheelEvent} event */
  wheel(event) {
    event.preventDefault();
    const lines = event.deltaMode === 1 ? 16 : 1;
    this.page.camera.zoomAt(event.offsetX, event.offsetY, Math.exp(-event.deltaY * lines * (event.ctrlKey ? 0.01 : 0.0016)));
    this.point(null, 0, 0);
    this.page.moving();
  }
}

/** @param {Page} page */
function followPointers(page) {
  return new Pointers(page);
}
