// Makes elements, and says in words what the server says in data. All texts go through textContent: what stations call themselves is never markup.

const SVG = "http://www.w3.org/2000/svg";

/** An element with these attributes and children; a child may be a text. A class list and each attribute may be absent. */
export function make(name, attributes = {}, ...children) {
  return filled(document.createElement(name), attributes, children);
}

/** The same for a part of a picture. */
export function draw(name, attributes = {}, ...children) {
  return filled(document.createElementNS(SVG, name), attributes, children);
}

function filled(element, attributes, children) {
  for (const [key, value] of Object.entries(attributes)) {
    if (value !== null && value !== undefined && value !== false) element.setAttribute(key, value === true ? "" : value);
  }
  element.append(...children.filter((child) => child !== null && child !== undefined));
  return element;
}

/** An icon. It is beside a word that says the same. */
export function shape(kind) {
  return draw("svg", { class: `shape ${kind}`, "aria-hidden": "true", focusable: "false" }, draw("use", { href: `#shape-${kind}` }));
}

/** Changes a text only if it is another one, so that the page is not laid out for nothing. Returns whether it was. */
export function write(element, text) {
  if (element.textContent === text) return false;
  element.textContent = text;
  return true;
}

/** Replaces the children of an element if what they show has changed. */
export function show(element, key, children) {
  if (element.dataset.shown === key) return;
  element.dataset.shown = key;
  element.replaceChildren(...children());
}

// ---- words

const STATES = {
  looking: ["busy", "looking for the station", "looking"],
  addressing: ["busy", "setting its address", "addressing"],
  connecting: ["busy", "connecting", "connecting"],
  writing: ["busy", "writing its records", "writing records"],
  ending: ["busy", "ending the parameters", "parameters end"],
  waiting: ["busy", "waiting until it is ready", "not ready yet"],
  exchanging: ["good", "exchanging data", "exchanging"],
  ended: ["bad", "ended", "ended"],
};

/** The kind of a state (its icon and colour), the state in words, and in few words. */
export function stateOf(station) {
  const [kind, words, few] = STATES[station.state] ?? ["idle", station.state || "not known yet", "unknown"];
  return { kind, words, few };
}

/** A duration of microseconds in milliseconds. */
export function milliseconds(us) {
  if (us === null || us === undefined) return "–";
  const digits = us < 10000 ? 3 : us < 100000 ? 2 : 1;
  return `${(us / 1000).toFixed(digits)} ms`;
}

const COUNTS = new Intl.NumberFormat("en");

export function count(number) {
  return number === null || number === undefined ? "–" : COUNTS.format(number);
}

/** `1 station`, `2 stations`. */
export function several(number, word) {
  return `${count(number)} ${word}${number === 1 ? "" : "s"}`;
}

/** An element for a time in seconds since 1970: the time of day, with the day if it is another one than today. */
export function clock(seconds) {
  if (!seconds) return make("span", {}, "–");
  const time = new Date(seconds * 1000);
  const two = (number) => String(number).padStart(2, "0");
  const day = `${time.getFullYear()}-${two(time.getMonth() + 1)}-${two(time.getDate())}`;
  const now = new Date();
  const isToday = now.toDateString() === time.toDateString();
  const text = `${two(time.getHours())}:${two(time.getMinutes())}:${two(time.getSeconds())}`;
  return make("time", { datetime: time.toISOString() }, isToday ? text : `${day} ${text}`);
}

/** The name of a module, or of one of its submodules, by the catalogue; empty if it has none. */
export function moduleOf(station, slot, subslot) {
  return station?.modules?.find((one) => one.slot === slot && one.subslot === subslot)?.text ?? "";
}

/** Where a submodule is, with the name of its module. */
export function submoduleOf(station, slot, subslot) {
  const name = moduleOf(station, slot, subslot) || moduleOf(station, slot, null);
  return `slot ${slot} subslot ${subslot}${name ? ` (${name})` : ""}`;
}

/** Where a diagnosis is: the submodule and its channel. */
export function placeOf(station, fault) {
  const channel = fault.channel === 32768 ? "" : `, channel ${fault.channel}`;
  return submoduleOf(station, fault.slot, fault.subslot) + channel;
}

/** A diagnosis in words. What it is about says its place. */
export function faultOf(fault) {
  const text = fault.text.replace(/, the submodule$/, "");
  return text === "an error of its maker" ? `error ${fault.error} of its maker` : text;
}

/** An alarm in words: what appears or disappears, and the rest of it. */
export function alarmOf(station, alarm) {
  const found = alarm.text.match(/(?:^|[ :])error \d+ \((.+?)\)(?: extended error \d+(?: \((.+?)\))?)? (appears|disappears[a-z, ]*)$/);
  const channel = alarm.text.match(/ channel (\d+) error /);
  const place = submoduleOf(station, alarm.slot, alarm.subslot) + (found && channel ? `, channel ${channel[1]}` : "");
  const text = found ? `${found[1]}${found[2] ? `, ${found[2]}` : ""} ${found[3]}` : `Alarm: ${alarm.text}`;
  const octets = alarm.octets && alarm.octets !== "-" ? `, octets ${alarm.octets}` : "";
  return { text, more: `${place}; ${alarm.priority} priority${octets}` };
}

const UNIT = 0.03125; // milliseconds

/** A stall in words: the line counts all since the start, in units of time. */
export function stallOf(text) {
  const found = text.match(/^(\d+) units of time .* (\d+) stalls?$/);
  if (!found) return text;
  const lost = Number(found[1]) * UNIT;
  return `The machine stood still: ${count(Math.round(lost * (lost < 10 ? 10 : 1)) / (lost < 10 ? 10 : 1))} ms were lost since the start, ${several(Number(found[2]), "time")}`;
}
