// Tokens on their wires, what waits at open forks, and the answer. Only what changed is touched.

const glyphs = new Map();
const piles = new Map();
const badges = new Map();
const wireLengths = new Map();
const restPoints = new Map();
// Wires with a token beside their text, and how many.
const besideText = new Map();
let answerSign = null;
// More tokens than these on one wire are a pile with its number.
const SIDE_BY_SIDE = 3;

// A new picture has no tokens yet.
function forgetTokens() {
  for (const known of [glyphs, piles, badges, wireLengths, restPoints, besideText]) known.clear();
  answerSign = null;
  markedNodes = [];
}

function wireLength(wire) {
  if (!wireLengths.has(wire)) wireLengths.set(wire, pathOf(wire).getTotalLength());
  return wireLengths.get(wire);
}
const pointOn = (wire, distance) => pathOf(wire).getPointAtLength(distance);

// How far along a wire of this length a token waits: near the node that it faces.
function restAlong(length, direction) {
  const near = Math.min(22, length * 0.42);
  return direction === "up" ? near : length - near;
}
const restDistance = ({ wire, direction }) => restAlong(wireLength(wire), direction);

// Where a token waits on a path.
const restOn = (path, { direction }) => path.getPointAtLength(restAlong(path.getTotalLength(), direction));

const spotOf = token => token.wire * 2 + (token.direction === "up" ? 1 : 0);
function restPoint(token) {
  const spot = spotOf(token);
  if (!restPoints.has(spot)) restPoints.set(spot, pointOn(token.wire, restDistance(token)));
  return restPoints.get(spot);
}

function glyphOf(ticket) {
  if (!glyphs.has(ticket)) {
    const glyph = { group: shape("g", { class: "token" }), looks: "" };
    glyphs.set(ticket, glyph);
    drawing.layers.tokens.append(glyph.group);
  }
  return glyphs.get(ticket);
}

// A circle is a question and a square an answer; the arrow is its direction, the small number its ticket.
function dressGlyph(glyph, ticket, token, colour) {
  const asks = token.value === "?";
  const text = token.value === "overflow" ? "∞" : token.value;
  const looks = [text, token.direction, colour].join();
  if (glyph.looks === looks) return;
  glyph.looks = looks;
  const up = token.direction === "up";
  const width = asks ? 22 : Math.max(22, 11 + text.length * 8.2);
  const fill = asks ? "var(--panel)" : colour;
  glyph.group.replaceChildren(
    shape("path", { d: up ? "M-7 -10L0 -20L7 -10Z" : "M-7 10L0 20L7 10Z", style: "fill:" + colour }),
    shape("rect", { class: "body", x: -width / 2, y: -11, width, height: 22, rx: asks ? 11 : 4, style: `stroke:${colour};fill:${fill}` }),
    shape("text", { y: 4.5, style: "fill:" + (asks ? colour : "var(--panel)") }, text),
    ticketTag(ticket, width / 2 - 6, up ? 11 : -11, colour));
}

function ticketTag(ticket, x, y, colour) {
  const width = Math.max(14, 6 + String(ticket).length * 6.3);
  return shape("g", { transform: `translate(${x + width / 2} ${y})` },
    shape("rect", { x: -width / 2, y: -7, width, height: 14, rx: 7, style: `fill:var(--panel);stroke:${colour};stroke-width:1.2` }),
    shape("text", { class: "tag", y: 3.4, style: "fill:" + colour }, String(ticket)));
}

// On the wall tokens and what is beside nodes are larger.
const glyphScale = () => sizesNow().glyph;
const placed = (x, y, scale = glyphScale()) => `translate(${x.toFixed(2)} ${y.toFixed(2)})` + (scale === 1 ? "" : ` scale(${scale})`);
function putGlyph(glyph, { x, y }) {
  glyph.place = { x, y };
  glyph.group.setAttribute("transform", placed(x, y));
}

function drawState() {
  const { state } = view.run;
  const last = toldMove();
  const bySpot = new Map();
  for (const [ticket, token] of state.live) {
    const spot = spotOf(token);
    if (bySpot.has(spot)) bySpot.get(spot).push(ticket); else bySpot.set(spot, [ticket]);
  }
  const shown = new Set();
  for (const [spot, tickets] of bySpot) drawSpot(spot, tickets, last ? last.ticket : -1, shown);
  moveTexts(bySpot);
  dropOthers(piles, spot => bySpot.has(spot) && bySpot.get(spot).length > SIDE_BY_SIDE);
  dropOthers(glyphs, ticket => shown.has(ticket));
  drawEntries(state.open);
  drawAnswer(state.answer);
  drawMap();
}

// The text of a wire makes room for a token that waits at its upper end, and goes where there are several.
function moveTexts(bySpot) {
  const before = [...besideText.keys()];
  besideText.clear();
  for (const [spot, tickets] of bySpot) if (spot % 2 === 1) besideText.set(spot >> 1, tickets.length);
  for (const wire of new Set([...before, ...besideText.keys()])) {
    const elements = drawing.wires.get(wire);
    if (elements) makeRoom(elements[1], wire);
  }
}

function makeRoom(label, wire) {
  const count = besideText.get(wire) || 0;
  const aside = Math.round((drawing.labelPlaces[wire].anchor === "end" ? -9 : 17) * glyphScale());
  if (count === 1) label.setAttribute("transform", `translate(${aside} 0)`); else label.removeAttribute("transform");
  label.classList.toggle("covered", count > 1 || (count === 1 && meetsSibling(wire, aside)));
}

// Whether the text of a wire, moved aside, meets that of another wire which leaves the same node.
function meetsSibling(wire, aside) {
  const { net, layout } = view;
  const box = (id, by) => {
    const width = wireText(net.wires[id], view.types).length * layout.sizes.letter;
    const { left, right, top, bottom } = boxOf(drawing.labelPlaces[id], width, layout.sizes);
    return { left: left + by, right: right + by, top, bottom };
  };
  return net.nodes[net.wires[wire].above].down.some(id => id !== wire && meets(box(id, 0), box(wire, aside)));
}

// Takes what isn't wanted any more out of the picture.
function dropOthers(known, wanted) {
  for (const [key, { group }] of known) {
    if (wanted(key)) continue;
    group.remove();
    known.delete(key);
  }
}

// The tokens that wait at one place: side by side, the one that moved last first, and the rest as a number.
function drawSpot(spot, tickets, mover, shown) {
  const order = tickets.includes(mover) ? [mover, ...tickets.filter(ticket => ticket !== mover)] : tickets;
  const token = view.run.state.live.get(order[0]);
  const { x, y } = restPoint(token);
  let right = x;
  for (const ticket of order.slice(0, SIDE_BY_SIDE)) {
    const glyph = glyphOf(ticket);
    shown.add(ticket);
    dressGlyph(glyph, ticket, view.run.state.live.get(ticket), tokenColour(ticket));
    putGlyph(glyph, { x: right, y });
    const { value } = view.run.state.live.get(ticket);
    right += Math.max(26, 16 + value.length * 8.2, 18 + String(ticket).length * 6.3) * glyphScale();
  }
  const more = tickets.length - SIDE_BY_SIDE;
  if (more <= 0) return;
  const text = "+" + more;
  const pile = piles.get(spot);
  if (pile && pile.text === text && pile.x === right) return;
  if (pile) pile.group.remove();
  const width = 14 + text.length * 7;
  const group = shape("g", { class: "pile", transform: placed(right + width / 2 * glyphScale() - 8, y), "data-wire": token.wire },
    shape("title", {}, tickets.length + " tokens wait here. Press to list them."),
    shape("rect", { x: -width / 2, y: -9, width, height: 18, rx: 9 }), shape("text", { y: 4 }, text));
  drawing.layers.piles.append(group);
  piles.set(spot, { text, x: right, group });
}

// Beside an operator with open entries: what the last one keeps, and how many there are where it isn't one.
function drawEntries(open) {
  const byNode = new Map();
  for (const entry of open.values()) {
    const known = byNode.get(entry.node);
    byNode.set(entry.node, { count: known ? known.count + 1 : 1, entry });
  }
  dropOthers(badges, node => byNode.has(node));
  for (const [node, { count, entry }] of byNode) {
    const text = count === 1 ? forkSides(entry) : count + " open";
    const badge = badges.get(node);
    if (badge && badge.text === text) continue;
    if (badge) badge.group.remove();
    const place = view.layout.places[node];
    const width = 14 + text.length * sizesNow().entry;
    const left = place.x - place.width / 2 - 3 - width / 2 * glyphScale();
    const group = shape("g", { class: "entry", transform: placed(left, place.y) },
      shape("rect", { x: -width / 2, y: -8, width, height: 16, rx: 4 }), shape("text", { y: 3.8 }, text));
    drawing.layers.entries.append(group);
    badges.set(node, { text, group });
  }
}

const answerWidth = answer => 20 + ("value " + answer).length * 7.6;

function drawAnswer(answer) {
  if (answer === null || answerSign) {
    if (answerSign && answer === null) { answerSign.remove(); answerSign = null; }
    return;
  }
  const root = view.net.nodes.find(node => node.name === "Root");
  const { x, y, width: beside } = view.layout.places[root.id];
  const text = "value " + answer;
  const width = answerWidth(answer);
  answerSign = shape("g", { class: "answer", transform: placed(x + beside / 2 + 10 + width / 2 * glyphScale(), y) },
    shape("rect", { x: -width / 2, y: -13, width, height: 26, rx: 5 }), shape("text", { y: 4.5 }, text));
  drawing.layers.entries.append(answerSign);
}
