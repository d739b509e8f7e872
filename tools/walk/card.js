// The card beside the token that moved last, with its two stacks, where it hides the least.

const cardHeight = () => 3 * sizesNow().line + 8;

function drawCard() {
  const layer = drawing.layers.card;
  layer.replaceChildren();
  const shown = shownToken();
  if (!view.card || !shown) return;
  const { ticket, token } = shown;
  const { mono, line: tall } = sizesNow();
  const room = Math.max(14, Math.min(30, Math.floor((pictureSize().width / camera.scale - 160) / (3 * mono))));
  const work = shortStack(token.work, room);
  const boxes = shortStack(token.boxes, room);
  const wire = `${token.wire} ${token.direction === "up" ? "↑" : "↓"}`;
  const width = 11 + (6 + Math.max(work.length, boxes.length, wire.length)) * mono;
  const point = restPoint(token);
  const { x, y } = freeSpot(point, width);
  const line = (name, text, at) => shape("text", { x: 7, y: at * tall + 1 }, shape("tspan", { class: "quiet" }, name), text);
  layer.append(
    shape("path", { d: `M${point.x} ${point.y}L${x + width / 2} ${y + cardHeight() / 2}`, class: "tie" }),
    shape("g", { class: "card", transform: `translate(${x} ${y})` },
      shape("rect", { width, height: cardHeight(), rx: 5 }), line("wire  ", wire, 1),
      line("work  ", work, 2), line("boxes ", boxes, 3)));
  const glyph = glyphs.get(ticket);
  if (glyph) drawing.layers.tokens.append(glyph.group);
}

function shortStack(stack, room) {
  if (stack === "-") return "empty";
  const parts = stackParts(stack);
  const text = parts.slice(0, 4).join(".") + (parts.length > 4 ? ".+" + (parts.length - 4) : "");
  return text.length > room ? text.slice(0, room - 1) + "…" : text;
}

// Of some places beside a point the one where a card hides the least: tokens before nodes before texts and wires. One that isn't whole in the
// window is worse than one that hides two nodes.
const CARD_OUTSIDE = 12000;
function freeSpot(point, width) {
  const hidden = nearThings(point, width);
  const height = cardHeight();
  const size = pictureSize();
  let best = null;
  // (In a narrow window it may be above or below the token, as far to the side as the window wants.)
  const [least, most] = [(6 - camera.x) / camera.scale, (size.width - 6 - camera.x) / camera.scale - width];
  const within = x => Math.max(least, Math.min(most, x));
  const heights = away => away ? [-18, -50, 14, -84, 46, -120, 90] : [-18 - height - 18 * glyphScale(), 24 * glyphScale(), -120, 46, 90];
  for (const away of [26, 60, 110, 170, 0]) for (const up of heights(away)) for (const left of away ? [0, 1] : [0]) {
    const x = away === 0 ? within(point.x - width / 2) : left ? point.x - away - width : point.x + away;
    const y = point.y + up;
    let cost = (away || 90) * 1.2 + Math.abs(up + 18) * 1.2 + left * 4;
    const screenX = x * camera.scale + camera.x;
    const screenY = y * camera.scale + camera.y;
    const outside = screenX < 6 || screenY < 6 || screenX + width * camera.scale > size.width - 6 ||
      screenY + height * camera.scale > size.height - 6;
    if (outside) cost += CARD_OUTSIDE;
    for (const thing of hidden) {
      const overX = Math.min(x + width, thing.right) - Math.max(x, thing.left);
      const overY = Math.min(y + height, thing.bottom) - Math.max(y, thing.top);
      if (overX > 0 && overY > 0) cost += overX * overY * thing.weight * 0.5 + thing.weight * 10;
    }
    if (!best || cost < best.cost) best = { x, y, cost };
  }
  return best;
}

// What is drawn near a point, as boxes with a weight.
function nearThings(point, width) {
  const things = [];
  const near = (x, y, far) => Math.abs(x - point.x) < width + 160 && Math.abs(y - point.y) < far;
  const add = (left, top, right, bottom, weight) => things.push({ left, top, right, bottom, weight });
  for (const id of drawing.nodes.keys()) {
    const { x, y, width: wide } = view.layout.places[id];
    if (near(x, y, 160)) add(x - wide / 2, y - 13, x + wide / 2, y + 13, 4);
  }
  for (const id of badges.keys()) {
    const { x, y, width: wide } = view.layout.places[id];
    if (near(x, y, 160)) add(x - wide / 2 - 66, y - 8, x - wide / 2, y + 8, 4);
  }
  const [wide, high] = [17 * glyphScale(), 22 * glyphScale()];
  for (const { place: { x, y } } of [...glyphs.values()].slice(0, 400)) add(x - wide, y - high, x + wide, y + high, 40);
  const { scale } = camera;
  for (const { left, top, right, bottom } of covers()) {
    add((left - camera.x) / scale, (top - camera.y) / scale, (right - camera.x) / scale, (bottom - camera.y) / scale, 40);
  }
  const text = view.types ? 90 : 14;
  for (const id of drawing.wires.keys()) {
    const points = view.layout.points[id];
    if (near(points[0][0], points[0][1], 200)) add(points[0][0] - text, points[0][1] + 4, points[0][0] + text, points[0][1] + 24, 0.5);
    for (let at = 1; at < points.length; at++) {
      const [fromX, fromY] = points[at - 1];
      const [toX, toY] = points[at];
      if (near(fromX, fromY, 200)) add(Math.min(fromX, toX) - 2, fromY, Math.max(fromX, toX) + 2, toY, 0.4);
    }
  }
  return things;
}
