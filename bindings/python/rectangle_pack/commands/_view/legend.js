// ---- The legend: groups with their colours, each of which can be hidden -----------------------------------------------------

/**
 * An entry: the groups that it stands for, where null is no group, and how many boxes they have.
 * @typedef {{name: string, groups: (Group | null)[], count: number}} Entry
 */

// So many groups are listed at first, and so many more each time that more are asked for.
const FIRST_GROUPS = 20;
const MORE_GROUPS = 200;

/**
 * Groups that have a colour of their own, an entry each.
 * @param {Scene} scene @returns {Entry[]}
 */
function groupEntries(scene) {
  return scene.groups.filter((group) => !group.isAlone).map((group) => ({ name: group.name, groups: [group], count: group.count }));
}

/**
 * One entry for all boxes that are alone, in no group or in one without others; none where there are no such boxes.
 * @param {Scene} scene @returns {Entry | null}
 */
function aloneEntry(scene) {
  const alone = scene.groups.filter((group) => group.isAlone);
  const without = scene.items.filter((item) => !item.group).length;
  if (!alone.length && !without) return null;
  const name = !alone.length ? "no group" : without ? "no group, or alone in one" : "alone in a group";
  return { name, groups: [...(without ? [null] : []), ...alone], count: without + alone.length };
}

/** The legend. */
class Legend {
  /** @param {Look} look @param {(groups: (Group | null)[], isShown: boolean) => void} onChange */
  constructor(look, onChange) {
    this.look = look;
    this.onChange = onChange;
    this.list = any("groups");
    this.more = element("more-groups", HTMLButtonElement);
    this.more.addEventListener("click", () => this.showMore());
    /** @type {Entry[]} */
    this.waiting = [];
    /** @type {HTMLElement | null} */
    this.last = null;
    /** @type {[HTMLCanvasElement, Group | null][]} */
    this.swatches = [];
    /** @type {HTMLInputElement[]} */
    this.boxes = [];
  }

  /** @param {Scene} scene */
  fill(scene) {
    [this.swatches, this.boxes, this.waiting] = [[], [], groupEntries(scene)];
    const alone = scene.groups.length ? aloneEntry(scene) : null;
    this.last = alone ? this.row(alone) : null;
    this.list.replaceChildren(...(this.last ? [this.last] : []));
    this.list.scrollTop = 0;
    any("groups-section").hidden = scene.groups.length === 0;
    this.add(FIRST_GROUPS);
  }

  /**
   * Lists so many of the groups that wait, before the entry of those that are alone.
   * @param {number} count
   */
  add(count) {
    const rows = this.waiting.splice(0, count).map((entry) => this.row(entry));
    for (const row of rows) this.list.insertBefore(row, this.last);
    this.more.hidden = this.waiting.length === 0;
    this.more.textContent = `and ${this.waiting.length} more`;
    this.paint();
    return rows;
  }

  /** Lists more groups, and goes to the first of them. */
  showMore() {
    const [first] = this.add(MORE_GROUPS);
    const box = first && first.querySelector("input");
    if (box) box.focus();
  }

  /** @param {Entry} entry */
  row({ name, groups, count }) {
    const row = made("li");
    const label = made("label");
    const box = document.createElement("input");
    box.type = "checkbox";
    box.checked = true;
    box.addEventListener("change", () => this.onChange(groups, box.checked));
    this.boxes.push(box);
    const swatch = document.createElement("canvas");
    swatch.width = swatch.height = 28;
    swatch.setAttribute("aria-hidden", "true");
    this.swatches.push([swatch, groups[0]]);
    label.append(box, swatch, made("span", name, "name"), made("span", String(count), "count"));
    row.append(label);
    return row;
  }

  showAll() {
    for (const box of this.boxes) box.checked = true;
  }

  paint() {
    for (const [swatch, group] of this.swatches) {
      const context = /** @type {CanvasRenderingContext2D} */ (swatch.getContext("2d"));
      context.fillStyle = this.look.paint(context, group);
      context.fillRect(0, 0, 28, 28);
      context.lineWidth = 2;
      context.strokeStyle = this.look.colours.edge;
      context.strokeRect(1, 1, 26, 26);
    }
  }
}
