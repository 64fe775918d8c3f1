// The picture of the cables: who is at which port, by what the stations hear of each other over LLDP.

import { draw, shape, stateOf } from "./parts.js";

const BOX = { width: 130, height: 46 };
const ACROSS = { column: BOX.width + 124, row: 66 };
const DOWN = { step: 22, row: BOX.height + 36, least: 6, column: BOX.width + 150 }; // with more rows a further column begins
const MARGIN = 16;
const CONTROLLER = "Controller"; // a name of DCP has no capitals

/** What the stations call the controller: its name and its MAC address. It is the one at the port that the controller hears, or has its MAC address. */
export function controllerOf(plant) {
  const { mac, neighbour } = plant.controller;
  for (const station of plant.stations.values()) {
    for (const port of station.ports) {
      const isHeard = neighbour !== null && port.name === neighbour.port && (station.name === neighbour.chassis || station.mac === neighbour.mac);
      const peer = port.peers.find((one) => one.mac === mac) ?? (isHeard && port.peers.length === 1 ? port.peers[0] : undefined);
      if (peer) return { mac: peer.mac, name: peer.station };
    }
  }
  return { mac, name: null };
}

/** The name under which a neighbour is on the picture: a station of the plan by its name or its MAC address, and the controller by its own. */
function knownAs(plant, controller, name, mac) {
  if (plant.stations.has(name)) return name;
  if (mac !== null && mac === controller.mac) return CONTROLLER;
  for (const station of plant.stations.values()) if (mac !== null && station.mac === mac) return station.name;
  return name;
}

/** The cables that the stations and the controller tell of. */
function told(plant) {
  const found = [], controller = controllerOf(plant);
  for (const station of plant.stations.values()) {
    for (const port of station.ports) {
      for (const peer of port.peers) found.push([{ name: station.name, port: port.name }, { name: knownAs(plant, controller, peer.station, peer.mac), port: peer.port }]);
    }
  }
  const { neighbour } = plant.controller;
  if (neighbour) found.push([{ name: CONTROLLER, port: "port-001" }, { name: knownAs(plant, controller, neighbour.chassis, neighbour.mac), port: neighbour.port }]);
  return found;
}

/** Those that are on the picture, by name, and the cables between them. A cable that both ends tell of is there once. */
export function network(plant) {
  const nodes = new Map();
  const add = (name, kind, station) => nodes.has(name) || nodes.set(name, { name, kind, station, cables: [] });
  add(CONTROLLER, "controller");
  for (const station of plant.stations.values()) add(station.name, "station", station);
  const cables = new Map();
  for (const ends of told(plant)) {
    const key = ends.map((end) => JSON.stringify([end.name, end.port])).sort().join();
    if (cables.has(key) || ends[0].name === ends[1].name) continue;
    const cable = { ends, key };
    cables.set(key, cable);
    for (const end of ends) {
      add(end.name, "other");
      nodes.get(end.name).cables.push(cable);
    }
  }
  return { nodes, cables: [...cables.values()], controller: nodes.get(CONTROLLER), link: plant.controller.link };
}

const otherEnd = (cable, name) => cable.ends[cable.ends[0].name === name ? 1 : 0];
const ownEnd = (cable, name) => cable.ends[cable.ends[0].name === name ? 0 : 1];

/** Trees over all cables, the one of the controller first: each node gets its depth and its children. Returns the roots. */
function trees({ nodes, controller }) {
  const reached = new Set();
  const grow = (root) => {
    root.depth = 0;
    reached.add(root.name);
    for (const queue = [root]; queue.length > 0;) {
      const node = queue.shift();
      node.children = [];
      const cables = [...node.cables].sort((one, other) => ownEnd(one, node.name).port.localeCompare(ownEnd(other, node.name).port, "en", { numeric: true }));
      for (const cable of cables) {
        const next = nodes.get(otherEnd(cable, node.name).name);
        if (reached.has(next.name)) continue;
        reached.add(next.name);
        Object.assign(next, { depth: node.depth + 1, parent: node, up: cable });
        node.children.push(next);
        queue.push(next);
      }
    }
    return root;
  };
  const roots = [grow(controller)];
  const rest = [...nodes.values()].sort((one, other) => other.cables.length - one.cables.length);
  for (const node of rest) if (!reached.has(node.name)) roots.push(grow(node));
  return roots;
}

/** Places of trees from left to right: a column for each depth, a row for each leaf. Returns where they end. */
function placedAcross(roots) {
  let row = 0;
  const place = (node) => {
    node.x = MARGIN + node.depth * ACROSS.column;
    if (node.children.length === 0) node.row = row++;
    node.children.forEach(place);
    if (node.children.length > 0) node.row = (node.children[0].row + node.children.at(-1).row) / 2;
    node.y = MARGIN + node.row * ACROSS.row;
  };
  roots.forEach(place);
  return MARGIN + row * ACROSS.row;
}

/** Places of trees from top to bottom: a row for each node. The last child goes on in the column of its parent, so a line stays a line. Returns
 *  where they end. */
function placedDown(roots) {
  let row = 0;
  const place = (node, column) => {
    node.x = MARGIN + column * DOWN.step;
    node.y = MARGIN + row++ * DOWN.row;
    node.children.forEach((child, at) => place(child, at === node.children.length - 1 ? column : column + 1));
  };
  roots.forEach((root) => place(root, 0));
  return MARGIN + row * DOWN.row;
}

/** Parts places from top to bottom into as many columns as there is room for. Returns where they end. */
function folded(nodes, bottom, room) {
  const width = Math.max(...nodes.map((node) => node.x)) - MARGIN + DOWN.column;
  const rows = Math.round((bottom - MARGIN) / DOWN.row);
  const columns = Math.max(1, Math.min(Math.floor((room - MARGIN) / width), Math.floor(rows / DOWN.least)));
  const each = Math.ceil(rows / columns);
  for (const node of nodes) {
    const row = Math.round((node.y - MARGIN) / DOWN.row);
    node.column = Math.floor(row / each);
    node.x += node.column * width;
    node.y = MARGIN + (row % each) * DOWN.row;
  }
  return MARGIN + Math.min(rows, each) * DOWN.row;
}

/** A node and all below it. */
function below(node) {
  return [node, ...node.children.flatMap(below)];
}

/** Places of those that have no cable: in rows. */
function placedAlone(nodes, top, room) {
  const width = BOX.width + 16;
  const columns = Math.max(1, Math.min(nodes.length, Math.floor((room - 2 * MARGIN + 16) / width)));
  nodes.forEach((node, at) => Object.assign(node, { x: MARGIN + (at % columns) * width, y: top + Math.floor(at / columns) * ACROSS.row }));
}

function deepest(roots) {
  return Math.max(0, ...roots.map((node) => Math.max(node.depth, node.children.length ? deepest(node.children) : 0)));
}

/** A text that fits, and the whole one where it does not. */
function fitted(text, letters) {
  return text.length <= letters ? text : `${text.slice(0, letters - 1)}…`;
}

function stateWords(plant, node) {
  if (node.kind === "controller") return plant.controller.link ? { kind: "good", words: "link up" } : { kind: "bad", words: "link down" };
  if (node.kind === "other") return { kind: "idle", words: "not in the plan" };
  const { kind, few } = stateOf(node.station);
  return { kind, words: few };
}

function boxOf(plant, node) {
  const { kind, words } = stateWords(plant, node);
  const icon = shape(kind);
  for (const [key, value] of Object.entries({ x: node.x + 10, y: node.y + 26.5, width: 12, height: 12 })) icon.setAttribute(key, value);
  const drawn = [
    draw("title", {}, `${node.name}: ${words}`),
    draw("rect", { class: "box", x: node.x, y: node.y, width: BOX.width, height: BOX.height, rx: 8 }),
    draw("text", { class: "name", x: node.x + 10, y: node.y + 19 }, fitted(node.name, 15)),
    icon,
    draw("text", { class: "word", x: node.x + 27, y: node.y + 37 }, fitted(words, 16)),
  ];
  const group = draw("g", { class: `${kind} ${node.kind}` }, ...drawn);
  return node.kind === "station" ? draw("a", { href: `#station-${node.name}`, "aria-label": `${node.name}: ${words}` }, group) : group;
}

/** A text over a ground, so that a cable below it does not cross it. */
function portText(text, x, y, anchor, letters) {
  const words = fitted(text, letters);
  const width = words.length * 6 + 6;
  const left = anchor === "start" ? x - 3 : anchor === "end" ? x - width + 3 : x - width / 2;
  return [
    draw("rect", { class: "back", x: left, y: y - 11, width, height: 15, rx: 3 }),
    draw("text", { class: "port", x, y, "text-anchor": anchor }, draw("title", {}, text), words),
  ];
}

/** How a cable is drawn: with dashes if one of its ends is not exchanging data, since what it said of its neighbours is old then. */
function lineOf(nodes, cable) {
  return cable.ends.some(({ name }) => nodes.get(name).station && nodes.get(name).station.state !== "exchanging") ? "cable old" : "cable";
}

function knob(x, y) {
  return draw("circle", { class: "end", cx: x, cy: y, r: 4 });
}

/** A cable of the tree from left to right. */
function cableAcross(nodes, parent, node) {
  const [x1, y1] = [parent.x + BOX.width, parent.y + BOX.height / 2];
  const [x2, y2] = [node.x, node.y + BOX.height / 2];
  const middle = (x1 + x2) / 2;
  const ports = [ownEnd(node.up, parent.name).port, ownEnd(node.up, node.name).port];
  const isLevel = Math.abs(y1 - y2) < 1;
  return [
    draw("path", { class: lineOf(nodes, node.up), d: `M${x1} ${y1}H${middle}V${y2}H${x2}` }),
    knob(x1, y1), knob(x2, y2),
    ...(isLevel || parent.children.length === 1 ? portText(ports[0], x1 + 8, y1 - 7, "start", 8) : portText(ports[0], middle + 5, y2 + 13, "start", 8)),
    ...portText(ports[1], x2 - 8, y2 - 7, "end", 8),
  ];
}

/** A cable of the tree from top to bottom. */
function cableDown(nodes, parent, node) {
  const x1 = parent.x + 12, y1 = parent.y + BOX.height;
  const x2 = node.x + 12, y2 = node.y;
  const ports = [ownEnd(node.up, parent.name).port, ownEnd(node.up, node.name).port];
  if (parent.column !== node.column) {
    const gap = x2 - 24; // between the columns
    return [draw("path", { class: lineOf(nodes, node.up), d: `M${x1} ${y1}V${y1 + 14}H${gap}V${y2 - 10}H${x2}V${y2}` }, draw("title", {}, `${ports[0]} to ${ports[1]}`)), knob(x1, y1), knob(x2, y2)];
  }
  return [
    draw("path", { class: lineOf(nodes, node.up), d: x1 === x2 ? `M${x1} ${y1}V${y2}` : `M${x1} ${y1}V${y2 - 18}H${x2}V${y2}` }),
    knob(x1, y1), knob(x2, y2),
    ...portText(ports[0] === ports[1] ? `${ports[0]} at both ends` : `${ports[0]} to ${ports[1]}`, x2 + 12, y2 - 13, "start", 48),
  ];
}

/** A cable that closes a ring: it is beside the tree. */
function cableBeside(cable, nodes, isAcross) {
  const [one, other] = cable.ends.map((end) => nodes.get(end.name));
  const side = isAcross ? (node) => [node.x + BOX.width / 2, node.y + BOX.height] : (node) => [node.x + BOX.width, node.y + BOX.height / 2];
  const [[x1, y1], [x2, y2]] = [side(one), side(other)];
  const bend = isAcross ? `${x1} ${y1 + 40} ${x2} ${y2 + 40}` : `${x1 + 60} ${y1} ${x2 + 60} ${y2}`;
  const text = `${cable.ends[0].port} to ${cable.ends[1].port}`;
  return [
    draw("path", { class: lineOf(nodes, cable), d: `M${x1} ${y1}C${bend} ${x2} ${y2}` }, draw("title", {}, text)),
    knob(x1, y1), knob(x2, y2),
    ...(isAcross ? portText(text, (x1 + x2) / 2, Math.max(y1, y2) + 34, "middle", 40) : portText(text, Math.max(x1, x2) + 24, (y1 + y2) / 2 + 4, "start", 28)),
  ];
}

/** The picture, as wide as there is room, else from top to bottom. */
export function pictureOf(plant, room) {
  const whole = network(plant);
  const { nodes, cables } = whole;
  const all = trees(whole);
  const roots = all.filter((node) => node.children.length > 0);
  const isAcross = MARGIN * 2 + deepest(roots) * ACROSS.column + BOX.width <= room;
  const bottom = isAcross ? placedAcross(roots) : folded(roots.flatMap(below), placedDown(roots), room);
  placedAlone(all.filter((node) => node.children.length === 0), bottom, room);
  const drawn = [...nodes.values()];
  const inTree = new Set(drawn.map((node) => node.up));
  const rings = cables.filter((cable) => !inTree.has(cable));
  const lines = [
    ...rings.flatMap((cable) => cableBeside(cable, nodes, isAcross)),
    ...drawn.filter((node) => node.parent).flatMap((node) => (isAcross ? cableAcross : cableDown)(nodes, node.parent, node)),
  ];
  const width = Math.max(...drawn.map((node) => node.x)) + BOX.width + MARGIN + (rings.length && !isAcross ? 190 : 0);
  const height = Math.max(...drawn.map((node) => node.y)) + BOX.height + MARGIN + (rings.length && isAcross ? 40 : 0);
  return draw("svg", { width, height, viewBox: `0 0 ${width} ${height}`, role: "group", "aria-label": "Cables between the stations" }, ...lines, ...drawn.map((node) => boxOf(plant, node)));
}

/** The same in words. */
export function cablesInWords(plant) {
  const { nodes, cables } = network(plant);
  const order = [...nodes.keys()];
  const sorted = cables.map(({ ends }) => [...ends].sort((one, other) => order.indexOf(one.name) - order.indexOf(other.name)));
  return sorted.map(([one, other]) => `${one.name}, ${one.port} – ${other.name}, ${other.port}`);
}
