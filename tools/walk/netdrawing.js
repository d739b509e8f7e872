// The net as a picture: frames, wires, nodes and the texts beside wires. Tokens and what else changes with each move come on top. Of a
// large net only what is near the window is in the picture, and where that is too much to read, a canvas below has it in rough.

const DRAW = { everything: 1500, rough: 3000, margin: 600 };

const drawing = {
  root: null,
  // The groups of what stays, and of what changes with the moves, from below to above.
  still: {},
  layers: {},
  // Where the texts beside wires are, and the bounds of each wire.
  labelPlaces: [],
  wireBounds: [],
  // The path of each wire that was asked for, in the picture or not.
  paths: new Map(),
  // What is in the picture: elements by node, and elements of a wire with its text.
  nodes: new Map(),
  wires: new Map(),
  // The part of the net that these are for; null where all of it is.
  range: null,
  rough: false,
};

const ROUND_NODES = new Set(["Der", "Con", "Weak", "Door"]);

function drawNet() {
  const { net, layout } = view;
  drawing.still = { frames: shape("g"), wires: shape("g"), labels: shape("g"), nodes: shape("g") };
  drawing.layers = {
    trail: shape("g", { class: "trail" }), guessed: shape("g", { class: "trail" }), mark: shape("g"), entries: shape("g"),
    piles: shape("g"), card: shape("g"), tokens: shape("g"),
  };
  const { frames, wires, labels, nodes } = drawing.still;
  const { trail, guessed, mark, entries, piles, card, tokens } = drawing.layers;
  drawing.root = shape("g", {}, frames, wires, trail, guessed, labels, nodes, mark, entries, piles, card, tokens);
  drawing.labelPlaces = placeLabels(net, layout, view.types);
  drawing.wireBounds = layout.points.map(boundsOf);
  for (const known of [drawing.paths, drawing.nodes, drawing.wires]) known.clear();
  drawing.range = undefined;
  byId("picture").replaceChildren(drawing.root);
  forgetTokens();
  if (net.nodes.length <= DRAW.everything) drawRange(null);
}

function boundsOf(points) {
  const bounds = { left: Infinity, right: -Infinity, top: points[0][1], bottom: points[points.length - 1][1] };
  for (const [x] of points) {
    bounds.left = Math.min(bounds.left, x);
    bounds.right = Math.max(bounds.right, x);
  }
  return bounds;
}

// Brings into the picture what is near the window, where that isn't there yet.
function drawNear() {
  if (view.net.nodes.length <= DRAW.everything) return;
  const { left, right, top, bottom } = shownRange();
  const { range } = drawing;
  const inside = range && left >= range.left && right <= range.right && top >= range.top && bottom <= range.bottom;
  const { margin } = DRAW;
  if (!inside || range.right - range.left > 3 * (right - left + margin)) {
    drawRange({ left: left - margin, right: right + margin, top: top - margin, bottom: bottom + margin });
  }
  drawRough();
}

// The part of the net that the window shows.
function shownRange() {
  const { width, height } = pictureSize();
  const left = -camera.x / camera.scale;
  const top = -camera.y / camera.scale;
  return { left, top, right: left + width / camera.scale, bottom: top + height / camera.scale };
}

const meets = (one, two) => one.left <= two.right && two.left <= one.right && one.top <= two.bottom && two.top <= one.bottom;
const holds = (range, { x, y }) => x >= range.left && x <= range.right && y >= range.top && y <= range.bottom;

// Has in the picture what meets a range, and nothing else; everything where no range is given.
function drawRange(range) {
  const { net, layout } = view;
  drawing.range = range;
  const nodes = net.nodes.filter(node => !range || holds(range, layout.places[node.id]));
  drawing.rough = range !== null && nodes.length > DRAW.rough;
  const seen = drawing.rough ? [] : nodes;
  const wires = drawing.rough ? [] : net.wires.filter(wire => !range || meets(range, drawing.wireBounds[wire.id]));
  const frames = drawing.rough ? [] : layout.frames.filter(frame => !range || meets(range, frame));
  drawing.still.frames.replaceChildren(...frames.map(drawFrame));
  keepDrawn(drawing.nodes, seen, node => {
    const group = drawNode(node, layout.places[node.id]);
    drawing.still.nodes.append(group);
    return [group];
  });
  keepDrawn(drawing.wires, wires, wire => {
    const elements = [drawWire(wire), drawLabel(wire, drawing.labelPlaces[wire.id])];
    drawing.still.wires.append(elements[0]);
    drawing.still.labels.append(elements[1]);
    return elements;
  });
}

// Takes out what isn't wanted any more, and makes what is new.
function keepDrawn(known, wanted, make) {
  const ids = new Set(wanted.map(it => it.id));
  for (const [id, elements] of known) {
    if (ids.has(id)) continue;
    for (const element of elements) element.remove();
    known.delete(id);
  }
  for (const it of wanted) if (!known.has(it.id)) known.set(it.id, make(it));
}

function drawFrame({ left, right, top, bottom, depth, fix }) {
  const kind = fix ? "fix" : depth % 2 ? "odd" : "even";
  return shape("rect", { class: "frame " + kind, x: left, y: top, width: right - left, height: bottom - top, rx: 9 });
}

function drawWire(wire, layout = view.layout) {
  return shape("path", { class: "wire " + wire.kind, d: wirePath(layout.points[wire.id]) },
    shape("title", {}, wireWords(wire, layout.net)));
}

function drawLabel(wire, { x, y, anchor }) {
  const label = shape("text", { class: view.types ? "label typed" : "label", x, y, "text-anchor": anchor }, wireText(wire, view.types));
  makeRoom(label, wire.id);
  return label;
}

function drawNode(node, { x, y, width, text: own }) {
  const kind = ROUND_NODES.has(node.name) ? "node round" : node.name === "Const" ? "node number" : "node";
  const text = shape("text", { y: sizesNow().text * 0.36 }, own, shape("tspan", { class: "id", dx: 3 }, String(node.id)));
  const rule = RULES[node.name];
  const title = `node ${node.id}: ${node.name}, ${TITLES[node.name]}${rule ? ` (${rule})` : ""}`;
  const radius = ROUND_NODES.has(node.name) ? 13 : 6;
  const box = shape("rect", { x: -width / 2, y: -SIZES.nodeHeight / 2, width, height: SIZES.nodeHeight, rx: radius });
  return shape("g", { class: kind, transform: `translate(${x} ${y})`, "data-node": node.id }, box, text, shape("title", {}, title));
}

// Frames, wires and nodes in rough, on the canvas below the picture.
function drawRough() {
  const canvas = byId("rough");
  canvas.hidden = !drawing.rough;
  if (!drawing.rough) return;
  const { layout, net } = view;
  const { width, height } = pictureSize();
  const brush = sizedCanvas(canvas, width, height);
  brush.translate(camera.x, camera.y);
  brush.scale(camera.scale, camera.scale);
  const { range } = drawing;
  for (const frame of layout.frames) {
    if (!meets(range, frame)) continue;
    brush.fillStyle = styleValue(frame.fix ? "--fix1" : frame.depth % 2 ? "--box1" : "--box2");
    brush.fillRect(frame.left, frame.top, frame.right - frame.left, frame.bottom - frame.top);
  }
  brush.strokeStyle = styleValue("--faint");
  brush.lineWidth = 0.6 / camera.scale;
  brush.beginPath();
  for (const wire of net.wires) {
    if (!meets(range, drawing.wireBounds[wire.id])) continue;
    const [first, ...rest] = layout.points[wire.id];
    brush.moveTo(...first);
    for (const point of rest) brush.lineTo(...point);
  }
  brush.stroke();
  brush.fillStyle = styleValue("--node-line");
  const least = 1.5 / camera.scale;
  for (const place of layout.places) {
    if (!holds(range, place)) continue;
    const [wide, high] = [Math.max(least, place.width), Math.max(least, SIZES.nodeHeight)];
    brush.fillRect(place.x - wide / 2, place.y - high / 2, wide, high);
  }
}

// The path of a wire, to go along it.
function pathOf(wire) {
  if (!drawing.paths.has(wire)) drawing.paths.set(wire, shape("path", { d: wirePath(view.layout.points[wire]) }));
  return drawing.paths.get(wire);
}

// The nodes at which tokens moved last, drawn once more on top; the first is that of the move that is told.
let markedNodes = [];
function markNodes(ids) {
  if (ids.join() === markedNodes.join()) return;
  markedNodes = ids;
  drawing.layers.mark.replaceChildren(...ids.map((id, at) => {
    const node = drawNode(view.net.nodes[id], view.layout.places[id]);
    node.classList.add(at === 0 ? "at" : "too");
    return node;
  }).reverse());
}

// The wires that the ticket of the last move went before, the latest the boldest.
const TRAIL = 10;
function drawTrail() {
  const { run } = view;
  const last = toldMove();
  const trail = drawing.layers.trail;
  trail.replaceChildren();
  if (!last) return;
  let length = 0;
  for (let at = run.state.at - 1; at >= Math.max(0, run.state.at - 400) && length < TRAIL; at--) {
    const move = run.move(at);
    const born = move.kind === "fork" && move.ticket2 === last.ticket;
    if (move.ticket !== last.ticket && !born) continue;
    const style = `stroke:${moveColour(last)};stroke-width:${7 - length * 0.4};opacity:${(0.34 * (1 - length / TRAIL)).toFixed(2)}`;
    trail.append(shape("path", { d: wirePath(view.layout.points[move.before.wire]), style }));
    length++;
    if (born) break;
  }
}
