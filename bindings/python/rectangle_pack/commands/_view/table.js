// ---- The table of boxes -----------------------------------------------------------------------------------------------------

/**
 * A column: its head, how wide it is at most, in letters, whether it has numbers, and what it says of a box.
 * @typedef {{name: string, most: number, isNumber: boolean, text: (item: Item) => string}} Column
 */

/**
 * The columns of a scene. A flat one has no depths.
 * @param {Scene} scene @returns {Column[]}
 */
function columnsOf(scene) {
  /** @param {string} name @param {(item: Item) => string | number} text @returns {Column} */
  const number = (name, text) => ({ name, most: 20, isNumber: true, text: (item) => String(text(item)) });
  /** @param {string} name @param {number} most @param {(item: Item) => string} text @returns {Column} */
  const words = (name, most, text) => ({ name, most, isNumber: false, text });
  return [
    number("No.", (item) => item.number), words("Name", 30, (item) => item.name), words("Bin", 20, (item) => item.room.name),
    number("X", (item) => lengthText(item.at[0], scene)), number("Y", (item) => lengthText(item.at[1], scene)),
    ...(scene.isFlat ? [] : [number("Z", (item) => lengthText(item.at[2], scene))]),
    number("Width", (item) => lengthText(item.size[0], scene)), number("Height", (item) => lengthText(item.size[1], scene)),
    ...(scene.isFlat ? [] : [number("Depth", (item) => lengthText(item.size[2], scene))]),
    ...(scene.groups.length ? [words("Group", 24, (item) => (item.group ? item.group.name : ""))] : []),
    ...(scene.hasNotes ? [words("Note", 40, (item) => item.note)] : []),
    words("Now", 15, () => ""),
  ];
}

/**
 * How many letters wide the columns are: as their longest texts.
 * @param {Column[]} columns @param {Item[]} items
 */
function lettersOf(columns, items) {
  return columns.map(({ name, most, text }) => {
    const longest = items.reduce((length, item) => Math.max(length, text(item).length), name.length + 1);
    return name === "Now" ? most : Math.min(most, longest);
  });
}

/** The table of all boxes: each has a row, which is hidden where the box does not stand in a bin. */
class BoxTable {
  /** @param {(item: Item) => void} onChoose */
  constructor(onChoose) {
    this.table = element("table", HTMLTableElement);
    this.list = any("list");
    this.onChoose = onChoose;
    /** @type {HTMLTableRowElement[]} */
    this.rows = [];
    /** @type {Item[]} */
    this.items = [];
    /** @type {HTMLTableRowElement | null} */
    this.chosen = null;
    this.table.tBodies[0].addEventListener("click", (event) => this.choose(event.target));
    this.table.tBodies[0].addEventListener("keydown", (event) => this.key(event));
  }

  /** @param {Scene} scene */
  fill(scene) {
    const columns = columnsOf(scene);
    // Each row is a grid of its own, so that a change of one leaves the others as they are laid out.
    const letters = lettersOf(columns, scene.items);
    const all = letters.reduce((sum, it) => sum + it, 0);
    this.table.style.setProperty("--columns", letters.map((it) => `minmax(calc(${it}ch + 22px), ${it}fr)`).join(" "));
    this.table.style.setProperty("--width", `calc(${all}ch + ${22 * letters.length + 12}px)`);
    const head = rowOf(columns, (column) => cellOf("th", column.name, column, "columnheader"));
    /** @type {HTMLTableSectionElement} */ (this.table.tHead).replaceChildren(head);
    this.items = scene.items;
    this.rows = scene.items.map((item) => {
      const row = rowOf(columns, (column) => {
        const [kind, role] = column.name === "Name" ? ["th", "rowheader"] : ["td", "cell"];
        return cellOf(kind, column.text(item), column, role);
      });
      row.dataset.index = String(item.index);
      row.hidden = true;
      row.tabIndex = -1;
      return row;
    });
    this.table.tBodies[0].replaceChildren(...this.rows);
    this.chosen = null;
  }

  /**
   * Shows the rows of the boxes that stand in a bin now, and of those that the step releases.
   * @param {Set<Item>} standing @param {Set<Item>} visible @param {View} view @param {Item | null} selected
   */
  update(standing, visible, view, selected) {
    const { placed, matches } = view;
    const released = new Set(view.ghosts);
    /** @type {HTMLTableRowElement | null} */
    let first = null;
    this.items.forEach((item, index) => {
      const row = this.rows[index];
      const isGone = released.has(item);
      const isThere = standing.has(item) || isGone;
      if (row.hidden === isThere) row.hidden = !isThere;
      if (!isThere) return;
      first = first || row;
      const state = isGone ? "released" : !visible.has(item) ? "hidden" : placed.has(item) ? "placed" : "";
      const now = [state, matches && matches.has(item) ? "found" : ""].filter((it) => it).join(", ");
      const last = /** @type {HTMLElement} */ (row.lastElementChild);
      if (last.textContent !== now) [row.className, last.textContent] = [now.replace(",", ""), now];
    });
    this.mark(selected ? this.rows[selected.index] : null, first);
  }

  /**
   * One row takes the focus: the chosen one, or the first.
   * @param {HTMLTableRowElement | null} row @param {HTMLTableRowElement | null} first
   */
  mark(row, first) {
    for (const it of this.table.tBodies[0].querySelectorAll("[tabindex='0'], [aria-current]")) {
      it.removeAttribute("aria-current");
      it.setAttribute("tabindex", "-1");
    }
    if (row && row !== this.chosen && !row.hidden && !this.table.contains(document.activeElement)) this.reveal(row);
    if (row) row.setAttribute("aria-current", "true");
    const focused = row && !row.hidden ? row : first;
    if (focused) focused.tabIndex = 0;
    this.chosen = row;
  }

  /**
   * Scrolls the list, and not the page, so far that the row is seen.
   * @param {HTMLTableRowElement} row
   */
  reveal(row) {
    const [inside, outside] = [row.getBoundingClientRect(), this.list.getBoundingClientRect()];
    const head = /** @type {HTMLElement} */ (this.table.tHead).offsetHeight;
    if (inside.top < outside.top + head) this.list.scrollTop -= outside.top + head - inside.top;
    else if (inside.bottom > outside.bottom) this.list.scrollTop += inside.bottom - outside.bottom;
  }

  /** @param {EventTarget | null} target */
  choose(target) {
    const row = target instanceof Element ? target.closest("tr") : null;
    if (row) this.onChoose(this.items[Number(row.dataset.index)]);
    return row;
  }

  /** @param {KeyboardEvent} event */
  key(event) {
    const ways = { ArrowDown: 1, ArrowUp: -1, PageDown: 10, PageUp: -10 };
    const way = ways[/** @type {keyof ways} */ (event.key)];
    const row = event.target instanceof Element ? event.target.closest("tr") : null;
    if (!row || (!way && event.key !== "Enter")) return;
    event.preventDefault();
    const shown = this.rows.filter((it) => !it.hidden);
    const next = shown[Math.min(shown.length - 1, Math.max(0, shown.indexOf(row) + (way || 0)))];
    next.tabIndex = 0;
    next.focus();
    this.choose(next);
  }
}

// The roles are those that the elements have anyway. They are named, since some browsers forget them where rows are grids.

/** @param {Column[]} columns @param {(column: Column) => HTMLElement} cell */
function rowOf(columns, cell) {
  const row = document.createElement("tr");
  row.setAttribute("role", "row");
  row.append(...columns.map(cell));
  return row;
}

/** @param {string} kind @param {string} text @param {Column} column @param {string} role */
function cellOf(kind, text, column, role) {
  const cell = made(kind, text, column.isNumber ? "number" : "");
  cell.setAttribute("role", role);
  if (kind === "th") cell.setAttribute("scope", role === "rowheader" ? "row" : "col");
  return cell;
}
