// The signals of a station: by module and submodule, bits in a row, and a table of what has a value.

import { draw, make, moduleOf, shape, show, write } from "./parts.js";

const QUIET = 5000; // milliseconds without a change after which a change flashes
const TREND = { seconds: 60, points: 120, width: 96, height: 24 };

/** A name that breaks at the end of a line after `_`, and nowhere else. */
function breakable(name) {
  return name.split(/(?<=_)/).flatMap((part, at) => (at ? [make("wbr"), part] : [part]));
}

/** The text of a signal, if it says more than its name. */
function textOf(signal) {
  const plain = (text) => text.toLowerCase().replace(/[^\p{L}\p{N}]/gu, "");
  return signal.text && plain(signal.text) !== plain(signal.signal) ? signal.text : "";
}

function placeOf(signal) {
  const bit = signal.bit === null ? "" : `, bit ${signal.bit}`;
  return `${signal.type}, slot ${signal.slot} subslot ${signal.subslot} octet ${signal.octet}${bit}`;
}

/** What all kinds of signals have in common: the newest data, and whether they were drawn. */
class Shown {
  constructor(signal, openSet) {
    this.signal = signal;
    this.openSet = openSet && signal.direction === "output" ? openSet : null;
    this.isDirty = true;
    this.isFresh = false;
    this.changedAt = 0;
    this.element = null;
  }

  take(data) {
    // A signal that changes all the time does not flash all the time.
    const now = Date.now();
    if (this.signal.raw !== data.raw) {
      this.isFresh = now - this.changedAt > QUIET;
      this.changedAt = now;
    }
    Object.assign(this.signal, data);
    this.isDirty = true;
  }

  isWanted(wanted) {
    return wanted === "" || `${this.signal.name} ${this.signal.text}`.toLowerCase().includes(wanted);
  }

  /** The element, made when it is first shown. */
  made() {
    if (!this.element) {
      this.element = this.make();
      this.element.addEventListener("animationend", () => this.element.classList.remove("is-fresh"));
    }
    return this.element;
  }

  button(...children) {
    const button = make("button", { type: "button", "aria-label": `Set ${this.signal.name}` }, ...children);
    button.addEventListener("click", () => this.openSet(this.signal));
    return button;
  }

  draw(now) {
    if (!this.element) return;
    this.drawTrend(now);
    if (!this.isDirty) return;
    this.isDirty = false;
    const { raw, good } = this.signal;
    const kind = raw === null ? "idle" : good ? "good" : "bad";
    this.drawValue(raw, kind);
    this.element.classList.toggle("not-good", kind !== "good");
    if (this.isFresh) this.element.classList.add("is-fresh");
    this.isFresh = false;
  }

  drawTrend() {}
}

/** A bit: a lamp with its name. */
class Bit extends Shown {
  make() {
    this.lamp = make("span", { class: "lamp" });
    this.value = make("span", { class: "unseen" });
    const name = make("span", { class: "name" }, ...breakable(this.signal.signal));
    const label = [this.lamp, name];
    const title = [this.signal.text, placeOf(this.signal)].filter(Boolean).join(". ");
    return make("li", { class: "bit", title }, this.openSet ? this.button(...label) : make("span", { class: "plate" }, ...label), make("span", { class: "value" }, this.value));
  }

  drawValue(raw, kind) {
    const lamp = raw === "true" ? "on" : raw === "false" ? "off" : "idle";
    show(this.lamp, lamp + kind, () => [shape(kind === "bad" ? "bad" : lamp), raw === "true" ? "1" : raw === "false" ? "0" : "–"]);
    write(this.value, raw ?? "–");
    show(this.value.parentElement, kind, () => [this.value, make("span", { class: "unseen quality" }, `, ${kind === "idle" ? "unknown" : kind}`)]);
    this.element.classList.toggle("is-on", raw === "true" && kind === "good");
  }
}

/** A value: its row, and what its number was in the last minute. */
class Row extends Shown {
  constructor(signal, openSet) {
    super(signal, openSet);
    this.points = [];
    this.isNumber = /^(Integer|Unsigned|Float|[NXCETRD][24]$|Unipolar)/.test(signal.type ?? "") && !signal.type.includes("+");
    this.remember();
  }

  make() {
    const { signal } = this;
    this.value = make("span", {});
    this.quality = make("td", { class: "quality" });
    this.line = draw("polyline", { points: "" });
    const view = { viewBox: `0 0 ${TREND.width} ${TREND.height}`, "aria-hidden": "true", preserveAspectRatio: "none" };
    const text = textOf(signal);
    const isLong = /String|\+|^V2$|^L2$|Date|Time/.test(signal.type ?? "");
    return make("tr", { class: isLong ? "is-long" : null },
      make("th", { scope: "row", title: placeOf(signal) }, ...breakable(signal.signal), text ? make("small", {}, text) : null),
      make("td", { class: "trend" }, this.isNumber ? draw("svg", view, this.line) : ""),
      make("td", { class: "value" }, this.value, signal.unit ? make("span", { class: "unit" }, signal.unit) : null),
      this.quality,
      make("td", { class: "change" }, this.openSet ? this.button("Set") : ""));
  }

  take(data) {
    super.take(data);
    this.remember();
  }

  remember() {
    const number = Number(this.signal.raw ?? NaN);
    if (!this.isNumber || !Number.isFinite(number) || !this.signal.good) return;
    this.points.push([Date.now() / 1000, number]);
    if (this.points.length > TREND.points) this.points.shift();
  }

  drawValue(raw, kind) {
    write(this.value, raw ?? "–");
    const word = kind === "idle" ? "unknown" : kind;
    show(this.quality, kind, () => [shape(kind), make("span", { class: kind === "good" ? "unseen" : kind }, word)]);
  }

  /** The steps of the number within the last minute. */
  drawTrend(now) {
    if (!this.isNumber || this.points.length === 0) return;
    const begins = now - TREND.seconds;
    while (this.points.length > 1 && this.points[1][0] < begins) this.points.shift();
    const numbers = this.points.map(([, number]) => number);
    const low = Math.min(...numbers), span = Math.max(...numbers) - low;
    // A number that does not change is a level line, whenever it was said.
    const across = (time) => (span === 0 ? 0 : Math.max(0, ((time - begins) / TREND.seconds) * TREND.width)).toFixed(1);
    const up = (number) => (span === 0 ? TREND.height / 2 : TREND.height - 3 - ((number - low) / span) * (TREND.height - 6)).toFixed(1);
    const steps = this.points.flatMap(([time, number], at) => [...(at ? [`${across(time)},${up(this.points[at - 1][1])}`] : []), `${across(time)},${up(number)}`]);
    const text = [...(span === 0 ? steps.slice(0, 1) : steps), `${TREND.width},${up(numbers.at(-1))}`].join(" ");
    if (text !== this.drawn) this.line.setAttribute("points", (this.drawn = text));
  }
}

/** The signals of one submodule in one direction. */
class Group {
  constructor(key, rows) {
    const [{ signal }] = rows;
    Object.assign(this, { key, rows, slot: signal.slot, subslot: signal.subslot, direction: signal.direction });
    this.bits = rows.filter((row) => row instanceof Bit);
    this.values = rows.filter((row) => row instanceof Row);
  }

  make() {
    const words = this.direction === "output" ? "Outputs" : "Inputs";
    const bits = this.bits.length > 0 ? make("ul", { class: "bits", "aria-label": words }, ...this.bits.map((bit) => bit.made())) : null;
    const heads = ["Signal", "Last minute", "Value", "Quality", "Change"];
    const canBeSet = this.rows.some((row) => row.openSet);
    const table = this.values.length === 0 ? null : make("table", { class: canBeSet ? "has-change" : null },
      make("thead", { class: "unseen" }, make("tr", {}, ...heads.map((text) => make("th", { scope: "col" }, text)))),
      make("tbody", {}, ...this.values.map((row) => row.made())));
    this.element = make("div", { class: `group ${this.direction}` }, make("h5", {}, words), bits, table);
    return this.element;
  }
}

/** Parts a list by what a function says of each, in the order in which that comes first. */
function parted(list, keyOf) {
  const found = new Map();
  for (const one of list) {
    const key = keyOf(one);
    if (!found.has(key)) found.set(key, []);
    found.get(key).push(one);
  }
  return found;
}

export class Signals {
  constructor(station, openSet) {
    this.station = station;
    const sorted = [...station.signals].sort((one, other) => one.slot - other.slot || one.subslot - other.subslot);
    const made = sorted.map((signal) => (signal.type === "Boolean" ? new Bit(signal, openSet) : new Row(signal, openSet)));
    this.rows = new Map(made.map((row) => [row.signal.name, row]));
    this.groups = [...parted(made, ({ signal }) => JSON.stringify([signal.slot, signal.subslot, signal.direction]))].map(([key, rows]) => new Group(key, rows));
    this.element = make("div", { class: "modules" });
    this.wanted = "";
    this.modules = null;
  }

  /** Makes the modules with their signals, when they are first shown. */
  build() {
    if (this.modules) return;
    this.modules = [...parted(this.groups, (group) => group.slot)].map(([slot, groups]) => ({ groups, element: this.moduleOf(slot, groups) }));
    this.element.replaceChildren(...this.modules.map(({ element }) => element));
    this.hideOthers();
  }

  moduleOf(slot, groups) {
    const name = moduleOf(this.station, slot, null);
    const title = make("h4", {}, make("span", { class: "slot" }, `Slot ${slot}`), name);
    const subslots = parted(groups, (group) => group.subslot);
    const parts = [...subslots].flatMap(([subslot, own]) => {
      const its = moduleOf(this.station, slot, subslot);
      const isNamed = subslots.size > 1 || (its && its !== name);
      const ofBoth = own.length > 1;
      const head = isNamed ? [make("p", { class: "part" }, `Subslot ${subslot}`, its ? make("span", {}, its) : null)] : [];
      const made = own.map((group) => group.make());
      made.forEach((element) => element.classList.toggle("alone", !ofBoth));
      return [...head, ...made];
    });
    return make("section", { class: "module" }, title, ...parts);
  }

  take(name, data) {
    this.rows.get(name)?.take(data);
  }

  countBad() {
    let bad = 0;
    for (const row of this.rows.values()) bad += !row.signal.good;
    return bad;
  }

  draw() {
    this.build();
    const now = Date.now() / 1000;
    this.rows.forEach((row) => row.draw(now));
  }

  /** Shows the signals whose name or text has this text in it. Returns how many. */
  select(wanted) {
    if (wanted !== this.wanted) {
      this.wanted = wanted;
      this.shown = undefined;
      this.hideOthers();
    }
    this.shown ??= [...this.rows.values()].filter((row) => row.isWanted(wanted)).length;
    return this.shown;
  }

  hideOthers() {
    for (const { groups, element } of this.modules ?? []) {
      for (const group of groups) {
        for (const row of group.rows) row.element.hidden = !row.isWanted(this.wanted);
        group.element.hidden = group.rows.every((row) => row.element.hidden);
      }
      element.hidden = groups.every((group) => group.element.hidden);
    }
  }
}
