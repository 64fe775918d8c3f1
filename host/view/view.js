// The page: takes what the server says over Server-Sent Events, and shows it. It asks no other server for anything.

import { cablesInWords, controllerOf, pictureOf } from "./picture.js";
import { alarmOf, clock, count, faultOf, make, milliseconds, placeOf, several, shape, show, stallOf, stateOf, write } from "./parts.js";
import { openSet } from "./set.js";
import { Signals } from "./signals.js";

const MOST_EVENTS = 100;
const MOST_OPEN = 8; // stations that are open at once; with more, each is opened by a click, or by a search that finds few
const SILENCE = 4000; // milliseconds without anything of the server until the page says so: it sends a beat each second

const at = (id) => document.getElementById(id);
const plant = { controller: null, stations: new Map(), events: [], isSetAllowed: false, counts: {} };
const cards = new Map(); // of each station
let heard = 0; // when the server was heard last
let isConnected = false;
let isDue = false; // a turn of drawing is asked for

// ---- what arrives

/** The whole picture: at the beginning, and again after the connection was lost. */
function take(whole) {
  Object.assign(plant, { controller: whole.controller, isSetAllowed: whole.isSetAllowed, stations: new Map(), events: [] });
  for (const station of whole.stations) plant.stations.set(station.name, { ...station, signals: [] });
  for (const signal of whole.signals) plant.stations.get(signal.station)?.signals.push(signal);
  for (const event of [...whole.alarms.map(alarmEvent), ...whole.messages].sort((one, other) => one.time - other.time)) keep(event);
  build();
}

/** Makes the card of each station. One that was open or closed stays so. */
function build() {
  const open = new Map([...cards].map(([name, card]) => [name, card.chosen]));
  cards.forEach((card) => card.close());
  cards.clear();
  for (const station of plant.stations.values()) cards.set(station.name, new Card(station, open.get(station.name)));
  at("cards").replaceChildren(...[...cards.values()].map((card) => card.element));
  at("cards").classList.toggle("many", cards.size > MOST_OPEN);
  searched = null;
  due();
}

/** What has changed: the newest of each part, and each event. */
function change(parts) {
  let isNew = false;
  for (const { kind, key, data } of parts) {
    if (kind === "controller") plant.controller = data;
    else if (kind === "station") isNew = changeStation(key, data) || isNew;
    else if (kind === "signal") isNew = changeSignal(key, data) || isNew;
    else tell(kind === "alarm" ? alarmEvent(data) : data);
  }
  if (isNew) build();
  due();
}

/** Returns whether there is one more station, or one whose modules have names now. */
function changeStation(name, data) {
  const station = plant.stations.get(name);
  if (!station) {
    plant.stations.set(name, { ...data, signals: [] });
    return true;
  }
  if (data.state !== station.state) say(`${name}: ${stateOf(data).words}`);
  const isNamed = data.modules?.length !== station.modules?.length;
  Object.assign(station, data);
  return isNamed;
}

/** Returns whether there is one more signal, or one about which more is known. */
function changeSignal(name, data) {
  const station = plant.stations.get(data.station);
  const signal = station?.signals.find((one) => one.name === name);
  if (signal && signal.type === data.type && signal.direction === data.direction) {
    cards.get(data.station)?.signals.take(name, data);
    return false;
  }
  if (signal) Object.assign(signal, data);
  else station?.signals.push(data);
  return station !== undefined;
}

function alarmEvent(alarm) {
  return { ...alarm, kind: "alarm", ...alarmOf(plant.stations.get(alarm.station), alarm) };
}

/** Keeps what happened. A stall counts all before it, so the newest is enough. */
function keep(event) {
  if (event.kind === "stall") {
    plant.events = plant.events.filter(({ kind }) => kind !== "stall");
    event = { ...event, text: stallOf(event.text) };
  }
  plant.events.unshift(event);
  plant.events.length = Math.min(plant.events.length, MOST_EVENTS);
}

function tell(event) {
  keep(event);
  say(`${event.station ?? ""} ${plant.events[0].text}`);
}

function listen() {
  const source = new EventSource("events");
  const on = (name, act) => source.addEventListener(name, (event) => {
    heard = Date.now();
    isConnected = true;
    act(JSON.parse(event.data));
  });
  on("whole", take);
  on("change", change);
  on("beat", (counts) => {
    plant.counts = counts;
    due();
  });
  source.addEventListener("error", () => {
    isConnected = false;
    due();
    // A server that refuses ends the source for good: the page asks again by itself.
    if (source.readyState === EventSource.CLOSED) setTimeout(listen, 3000);
  });
}

// ---- what is said to a screen reader, at most one sentence in two seconds

const sentences = [];

function say(text) {
  if (sentences.length < 5) sentences.push(text.trim());
}

setInterval(() => sentences.length && write(at("said"), sentences.shift()), 2000);

// ---- drawing

function due() {
  if (isDue) return;
  isDue = true;
  requestAnimationFrame(() => {
    isDue = false;
    drawFrame();
    drawSummary();
    drawPicture();
    drawDiagnosis();
    drawEvents();
    cards.forEach((card) => card.draw());
    select();
  });
}

/** The head of the page, and whether what it shows is of now. */
function drawFrame() {
  const { controller } = plant;
  const isSilent = !isConnected || Date.now() - heard > SILENCE;
  const { name, mac } = controller ? controllerOf(plant) : {};
  const title = name ? `Controller ${name}` : controller?.interface ? `Controller on ${controller.interface}` : "Plant";
  document.title = isSilent ? `${title} (no data)` : title;
  if (controller) {
    write(at("title"), title);
    write(at("controller"), [several(plant.stations.size, "station"), mac && `MAC address ${mac}`].filter(Boolean).join(" · "));
  }
  const [kind, word] = pageState(isSilent);
  mark(at("live"), kind, word);
  mark(at("rights"), plant.isSetAllowed ? "edit" : "lock", plant.isSetAllowed ? "outputs can be set" : "read only");
  document.body.classList.toggle("stale", kind === "bad");
  const isOld = isSilent ? "Nothing arrives from the server of this page. What is shown is of " : `${controller.ended}. What is shown may be out of date`;
  const text = kind === "bad" ? isOld : "";
  at("stale").hidden = text === "";
  show(at("stale"), text + (isSilent ? heard : ""), () => [text, isSilent ? clock(heard / 1000) : "", "."]);
  const { pages, closed } = plant.counts;
  const left = closed ? `; ${several(closed, "page")} closed because nobody read` : "";
  write(at("pages"), pages ? `${several(pages, "page")} open at this server${left}.` : "");
}

/** The kind and the word of the mark that says whether the page is live. */
function pageState(isSilent) {
  if (isSilent) return heard ? ["bad", "no data"] : ["busy", "connecting"];
  return plant.controller?.running ? ["good", "live"] : ["bad", "no controller"];
}

function mark(element, kind, word) {
  element.className = `mark ${kind === "lock" || kind === "edit" ? "idle" : kind}`;
  show(element, kind + word, () => [shape(kind), word]);
}

function drawSummary() {
  const { controller } = plant;
  const stations = [...plant.stations.values()];
  if (!controller) return;
  const exchanging = stations.filter((station) => station.state === "exchanging").length;
  const faults = stations.flatMap((station) => station.diagnosis).length;
  const sum = (key) => stations.reduce((total, station) => total + (station[key] ?? 0), 0);
  const longest = (key) => stations.reduce((most, station) => Math.max(most, station.interval?.[key] ?? 0), 0) || null;
  const lost = sum("lost");
  const ofAll = stations.length > 1 ? "the longest" : "";
  const tiles = [
    ["Stations", exchanging === stations.length ? "good" : "bad", `${exchanging} of ${stations.length}`, stations.length === 1 ? "exchanges data" : "exchange data"],
    ["Frames lost", lost ? "warn" : "good", count(lost), `of ${count(sum("received") + lost)}`],
    ["Interval, p50", null, milliseconds(longest("p50")), ofAll],
    ["Interval, p99", null, milliseconds(longest("p99")), ofAll],
    ["Diagnosis", faults ? "warn" : "good", faults ? count(faults) : "none", faults ? "reported now" : "reported"],
    ["Link", controller.link ? "good" : "bad", controller.link ? "up" : "down", controller.link ? "" : controller.link_reason],
  ];
  show(at("summary"), JSON.stringify(tiles), () => tiles.map(([title, kind, text, more]) =>
    make("div", { class: "tile" }, make("dt", {}, title), make("dd", {}, kind && shape(kind), text, " ", make("small", {}, more)))));
}

function drawPicture() {
  const panel = at("picture");
  const room = panel.clientWidth;
  if (!plant.controller || room === 0) return;
  const { link, neighbour, mac } = plant.controller;
  const shown = [...plant.stations.values()].map((station) => [station.name, station.state, station.mac, station.ports]);
  const key = JSON.stringify([room, link, neighbour, mac, shown]);
  show(panel, key, () => [pictureOf(plant, room)]);
  const words = cablesInWords(plant);
  show(at("cables"), key, () => words.map((text) => make("li", {}, text)));
  at("none").hidden = words.length > 0;
  at("list").hidden = words.length === 0;
}

function drawDiagnosis() {
  const faults = [...plant.stations.values()].flatMap((station) => station.diagnosis.map((fault) => ({ ...fault, station: station.name })));
  const link = (fault) => make("a", { class: "who", href: `#station-${fault.station}` }, fault.station);
  const more = (fault) => make("div", { class: "muted" }, link(fault), " ", placeOf(plant.stations.get(fault.station), fault));
  const item = (fault) => make("li", {}, shape("warn"), make("div", {}, make("strong", {}, faultOf(fault)), more(fault)));
  const names = [...plant.stations.values()].map((station) => station.modules?.length);
  show(at("diagnosis"), JSON.stringify([faults, names]), () => itemsOr("No station reports one.", faults.map(item)));
}

const KINDS = { alarm: "warn", ended: "bad", warning: "warn", refused: "warn", stall: "warn", link: "busy" };

function drawEvents() {
  const who = (event) => (event.station ? make("a", { class: "who", href: `#station-${event.station}` }, event.station) : null);
  const head = (event) => make("div", { class: "muted" }, clock(event.time), " ", who(event));
  const more = (event) => (event.more ? make("div", { class: "muted" }, event.more) : null);
  const item = (event) => make("li", {}, shape(KINDS[event.kind] ?? "idle"), make("div", {}, head(event), event.text, more(event)));
  const key = plant.events.map((event) => event.kind + event.number).join();
  show(at("events"), key, () => itemsOr("Nothing yet.", plant.events.map(item)));
}

/** The items of a list, or one that says that there are none. */
function itemsOr(text, items) {
  return items.length > 0 ? items : [make("li", { class: "muted" }, text)];
}

// ---- a station

class Card {
  /** `isOpen` is what was chosen before, if anything was. */
  constructor(station, isOpen) {
    this.station = station;
    this.chosen = isOpen;
    this.isSeen = true;
    this.state = make("span", { class: "state" });
    this.brief = make("span", { class: "brief muted" });
    this.why = make("p", { class: "why", hidden: true });
    this.faults = make("ul", { class: "faults", hidden: true, "aria-label": `Diagnosis of ${station.name}` });
    this.facts = make("dl", { class: "facts" });
    this.signals = new Signals(station, plant.isSetAllowed ? openSet : null);
    const title = make("h3", { id: `station-${station.name}`, tabindex: "-1" }, station.name);
    this.line = make("summary", {}, title, this.state, this.brief);
    this.more = make("details", { open: isOpen ?? plant.stations.size <= MOST_OPEN }, this.line, this.facts, this.signals.element);
    this.more.addEventListener("toggle", () => this.placeTrouble());
    this.line.addEventListener("click", () => (this.chosen = !this.more.open));
    this.element = make("section", { class: "card", "aria-labelledby": title.id }, this.more);
    this.placeTrouble();
    this.watcher = new IntersectionObserver(([seen]) => {
      this.isSeen = seen.isIntersecting;
      due();
    }, { rootMargin: "300px" });
    this.watcher.observe(this.element);
  }

  /** What is wrong is below the line of the station, also while it is closed. */
  placeTrouble() {
    (this.more.open ? this.line : this.more).after(this.why, this.faults);
    due();
  }

  close() {
    this.watcher.disconnect();
  }

  hasTrouble() {
    return this.station.state !== "exchanging" || this.station.diagnosis.length > 0 || this.signals.countBad() > 0;
  }

  draw() {
    this.drawTrouble();
    if (!this.isSeen) return;
    this.drawBrief();
    if (!this.more.open) return;
    this.drawFacts();
    this.signals.draw();
  }

  /** The state of a station and what is wrong, also where nobody looks: a search in the page and a screen reader find it there. */
  drawTrouble() {
    const { station } = this;
    const { kind, words } = stateOf(station);
    const look = kind === "good" && station.diagnosis.length > 0 ? "warn" : kind;
    const why = station.state === "exchanging" ? "" : station.waiting ?? station.cause?.text ?? "";
    const key = JSON.stringify([kind, words, why, station.diagnosis, station.modules?.length]);
    if (this.trouble === key) return;
    this.trouble = key;
    this.element.className = `card is-${look}`;
    this.state.className = `state ${kind}`;
    this.state.replaceChildren(shape(kind), words);
    this.why.hidden = why === "";
    this.why.textContent = why;
    this.faults.hidden = station.diagnosis.length === 0;
    this.faults.replaceChildren(...station.diagnosis.map((fault) => make("li", {}, shape("warn"), ` ${faultOf(fault)}: ${placeOf(station, fault)}`)));
  }

  /** What the line of a station says, also while it is closed. */
  drawBrief() {
    const { station } = this;
    const bad = this.signals.countBad();
    const parts = [station.address, station.interval && `p99 ${milliseconds(station.interval.p99)}`, station.lost ? `${count(station.lost)} lost` : null,
      `${several(this.signals.rows.size, "signal")}${bad ? `, ${bad} bad` : ""}`];
    write(this.brief, parts.filter(Boolean).join(" · "));
  }

  drawFacts() {
    const { station } = this;
    const facts = [
      ["Address", station.address ?? "–"], ["MAC address", station.mac ?? "–"], ["In this state since", clock(station.since)],
      ["Interval, p50", milliseconds(station.interval?.p50)], ["Interval, p99", milliseconds(station.interval?.p99)],
      ["Frames lost", `${count(station.lost)} of ${count(station.received + station.lost)}`],
    ];
    if (station.cause && station.state === "exchanging") {
      facts.push(["Ended before", make("span", {}, clock(station.cause.time), `: ${station.cause.text}`), "wide"]);
    }
    const key = JSON.stringify(facts.map(([, value]) => value.textContent ?? value));
    show(this.facts, key, () => facts.map(([title, value, width]) => make("div", { class: width }, make("dt", {}, title), make("dd", {}, value))));
  }
}

// ---- searching

let searched = null;

function select() {
  const wanted = at("find").value.trim().toLowerCase();
  const isTroubleOnly = at("trouble").checked;
  let stations = 0, signals = 0;
  const found = [];
  for (const card of cards.values()) {
    const isNamed = card.station.name.toLowerCase().includes(wanted);
    const shown = card.signals.select(isNamed ? "" : wanted);
    const isShown = (isNamed || shown > 0) && (!isTroubleOnly || card.hasTrouble());
    card.element.hidden = !isShown;
    if (isShown) found.push([card, shown]);
    stations += isShown;
    signals += isShown ? shown : 0;
  }
  if (wanted !== searched) found.forEach(([card, shown]) => (card.more.open = wanted === "" ? card.chosen ?? cards.size <= MOST_OPEN : shown > 0 && found.length <= MOST_OPEN));
  searched = wanted;
  const text = `${several(stations, "station")}, ${several(signals, "signal")}${wanted || isTroubleOnly ? " found" : ""}`;
  write(at("found"), cards.size === 0 ? "" : text);
}

/** A link to a station opens it. */
function openLinked() {
  const card = cards.get(decodeURIComponent(location.hash).replace("#station-", ""));
  if (card) card.chosen = card.more.open = true;
}

addEventListener("hashchange", openLinked);
at("find").addEventListener("input", due);
at("trouble").addEventListener("change", due);
at("filter").addEventListener("submit", (event) => event.preventDefault());
document.addEventListener("keydown", (event) => {
  const isTyping = event.target.closest?.("input, dialog");
  if (event.key === "/" && !isTyping && !event.ctrlKey && !event.metaKey && !event.altKey) {
    event.preventDefault();
    at("find").focus();
  } else if (event.key === "Escape" && event.target === at("find")) {
    at("find").value = "";
    due();
  }
});
new ResizeObserver(due).observe(at("picture"));
setInterval(due, 1000);
listen();
