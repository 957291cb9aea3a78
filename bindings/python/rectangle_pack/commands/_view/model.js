// ---- The scene: what stands where after each step ---------------------------------------------------------------------------

/**
 * @typedef {[number, number, number]} Triple
 * @typedef {{at: Triple, size: Triple}} Part
 * @typedef {{name: string, size: Triple, image: string, since: number, index: number}} Room
 *
 * A group. Its number is that of its colour. It is alone where it has one box, and is drawn as boxes in no group.
 * @typedef {{name: string, index: number, count: number, isAlone: boolean}} Group
 *
 * @typedef {Part & {index: number, number: string, name: string, room: Room, group: Group | null, note: string,
 *   from: number, to: number, volume: bigint}} Item
 * @typedef {Part & {room: Room, from: number, to: number}} Section
 * @typedef {{text: string, answer: string[], refused: boolean, note: string, placed: Item[], released: Item[]}} Step
 * @typedef {Part & {room: Room, axis: number, blade: [number, number], step: SawStep, count: number}} Cut
 *
 * As the data has them:
 * @typedef {{number: number | string, name: string, bin: string, at: number[], group?: string, note?: string}} RawItem
 * @typedef {{gone?: number[], new?: number[][]}} RawChange
 * @typedef {{text: string, placed?: RawItem[], released?: (number | string)[], free?: Object<string, RawChange>,
 *   answer?: string[], refused?: boolean, note?: string}} RawStep
 * @typedef {{step: SawStep, blade: [number, number], part: number[]}} RawCut
 * @typedef {{title: string, unit: string, facts?: [string, string][], steps?: RawStep[],
 *   cuts?: Object<string, RawCut[]>, rooms?: {name: string, size: number[], image?: string, since?: number}[]}} RawScene
 */

/** @param {number[]} six @returns {Part} */
function partOf(six) {
  return { at: [six[0], six[1], six[2]], size: [six[3], six[4], six[5]] };
}

/** @param {Triple} size */
function volumeOf(size) {
  return BigInt(size[0]) * BigInt(size[1]) * BigInt(size[2]);
}

/** Bins, steps and cuts. Each box and each free section knows from which step on it is there, and with which it goes. */
class Scene {
  /** @param {RawScene} raw */
  constructor(raw) {
    this.title = raw.title;
    // A cell may be a part of a unit, as "0.1 mm".
    const [, part, unit] = raw.unit.match(/^0[.](0*1) (.+)$/) || ["", "", raw.unit];
    this.unit = unit;
    this.decimals = part.length;
    this.facts = raw.facts || [];
    /** @type {Room[]} */
    this.rooms = (raw.rooms || []).map((room, index) => ({
      name: room.name, size: [room.size[0], room.size[1], room.size[2]], image: room.image || "", since: room.since || 0, index,
    }));
    this.isFlat = this.rooms.every((room) => room.size[2] <= 1);
    // The rows of a picture are counted from above.
    this.goesDown = this.rooms.some((room) => room.image !== "");
    /** @type {Item[]} */
    this.items = [];
    /** @type {Section[]} */
    this.sections = [];
    /** @type {Group[]} */
    this.groups = [];
    /** @type {Map<string, Room>} */
    this.byName = new Map(this.rooms.map((room) => [room.name, room]));
    /** @type {Step[]} */
    this.steps = this.readSteps(raw.steps || []);
    this.numberGroups();
    this.cuts = this.readCuts(raw.cuts || {});
    this.hasNotes = this.items.some((item) => item.note !== "");
  }

  /** @param {string} name @returns {Room} */
  room(name) {
    const room = this.byName.get(name);
    if (!room) throw new Error(`there is no bin ${name}`);
    return room;
  }

  /** @param {RawStep[]} raws @returns {Step[]} */
  readSteps(raws) {
    /** @type {Map<string, Item>} */
    const standing = new Map();
    /** @type {Map<Room, Section[]>} */
    const told = new Map(this.rooms.map((room) => [room, []]));
    /** @type {Map<string, Group>} */
    const groups = new Map();
    return raws.map((raw, index) => {
      const placed = (raw.placed || []).map((it) => this.readItem(it, index, groups));
      const released = (raw.released || []).flatMap((number) => standing.get(String(number)) || []);
      for (const item of placed) standing.set(item.number, item);
      for (const item of released) item.to = index;
      this.readFree(new Set([...placed, ...released].map((item) => item.room)), raw.free || {}, told, index);
      return {
        text: raw.text, answer: raw.answer || [], refused: raw.refused || false, note: raw.note || "", placed, released,
      };
    });
  }

  /** @param {RawItem} raw @param {number} step @param {Map<string, Group>} groups @returns {Item} */
  readItem(raw, step, groups) {
    const part = partOf(raw.at);
    let group = null;
    if (raw.group) {
      group = groups.get(raw.group) || { name: raw.group, index: 0, count: 0, isAlone: false };
      if (!groups.has(raw.group)) this.groups.push(group);
      groups.set(raw.group, group);
      group.count += 1;
    }
    const item = {
      ...part, index: this.items.length, number: String(raw.number), name: raw.name, room: this.room(raw.bin), group,
      note: raw.note || "", from: step, to: Infinity, volume: volumeOf(part.size),
    };
    this.items.push(item);
    return item;
  }

  /** Each group has a colour of its own; but where there are more groups than colours, only those of several boxes. */
  numberGroups() {
    let next = 0;
    for (const group of this.groups) {
      group.isAlone = group.count === 1 && this.groups.length > FILLS;
      if (!group.isAlone) {
        group.index = next;
        next += 1;
      }
    }
  }

  /**
   * What is free in a bin is told as a change of what was told last. In a bin that changed, and of which nothing is told, it is
   * not known.
   * @param {Set<Room>} changed @param {Object<string, RawChange>} free @param {Map<Room, Section[]>} told @param {number} step
   */
  readFree(changed, free, told, step) {
    const changes = new Map(Object.entries(free).map(([name, change]) => [this.room(name), change]));
    for (const room of changed) {
      if (!changes.has(room)) for (const it of told.get(room) || []) it.to = Math.min(it.to, step);
    }
    for (const [room, change] of changes) {
      const gone = new Set(change.gone || []);
      /** @type {Section[]} */
      const now = [];
      (told.get(room) || []).forEach((it, index) => {
        if (gone.has(index)) it.to = Math.min(it.to, step);
        else now.push(it.to === Infinity ? it : this.opened({ ...it, from: step, to: Infinity }));
      });
      for (const six of change.new || []) now.push(this.opened({ ...partOf(six), room, from: step, to: Infinity }));
      told.set(room, now);
    }
  }

  /** @param {Section} section */
  opened(section) {
    this.sections.push(section);
    return section;
  }

  /** @param {Object<string, RawCut[]>} raws @returns {Cut[]} */
  readCuts(raws) {
    return Object.entries(raws).flatMap(([name, cuts]) => cuts.map(({ step, blade, part }) => (
      { ...partOf(part), room: this.room(name), axis: "xy".indexOf(step.axis), blade, step, count: cuts.length }
    )));
  }

  /** @param {number} step */
  roomsAt(step) {
    return this.rooms.filter((room) => room.since <= step);
  }

  /** @param {number} step */
  itemsAt(step) {
    return this.items.filter((item) => item.from <= step && step < item.to);
  }

  /** @param {number} step @returns {Map<Room, Section[]>} */
  sectionsAt(step) {
    return byRoom(this.sections.filter((it) => it.from <= step && step < it.to));
  }
}

/**
 * Boxes or sections, bin by bin.
 * @template {{room: Room}} T
 * @param {Iterable<T>} parts @returns {Map<Room, T[]>}
 */
function byRoom(parts) {
  /** @type {Map<Room, T[]>} */
  const rooms = new Map();
  for (const part of parts) {
    const known = rooms.get(part.room);
    if (known) known.push(part);
    else rooms.set(part.room, [part]);
  }
  return rooms;
}

/**
 * A length in words, exactly.
 * @param {number} cells @param {Scene} scene
 */
function lengthText(cells, { decimals }) {
  const digits = String(cells).padStart(decimals + 1, "0");
  const behind = digits.slice(digits.length - decimals).replace(/0+$/, "");
  return decimals ? `${digits.slice(0, -decimals)}${behind && "."}${behind}` : digits;
}

/**
 * A size in words: of a flat scene the width and the height.
 * @param {Triple} size @param {Scene} scene
 */
function sizeText(size, scene) {
  return (scene.isFlat ? size.slice(0, 2) : size).map((side) => lengthText(side, scene)).join(" × ");
}

/** @param {number} count @param {string} one @param {string} many */
function counted(count, one, many) {
  return `${count} ${count === 1 ? one : many}`;
}

/**
 * How much of a bin is filled, as the commands print it: in percent with one decimal, rounded down.
 * @param {Room} room @param {Item[]} items
 */
function filledText(room, items) {
  const whole = volumeOf(room.size);
  if (whole === 0n) return "no cells";
  const placed = items.reduce((sum, item) => sum + item.volume, 0n);
  const tenths = (1000n * placed) / whole;
  if (placed > 0n && tenths === 0n) return "under 0.1 % filled";
  return `${tenths / 10n}${tenths % 10n ? `.${tenths % 10n}` : ""} % filled`;
}
