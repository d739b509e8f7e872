// What part of the net the picture shows, and how large.

const camera = {
  x: 0,
  y: 0,
  scale: 1,
  // Whether somebody has moved it: then it is left alone where the window changes its size.
  moved: false,
};
const SCALES = { least: 0.002, most: 4, texts: 0.42, legible: 0.56, close: 0.85, whole: 1.7, wallWhole: 2.6 };
// On a wall the smallest letter has this share of the window's height; in a window that is higher than wide, of its width.
const WALL_SHARES = { high: 1 / 36, wide: 1 / 21 };
const wallScale = () => Math.min(innerHeight * WALL_SHARES.high, innerWidth * WALL_SHARES.wide) / WALL_SIZES.text;
// What the buttons above take of the picture, and what is left free at its sides and around the legend below.
const RIMS = { above: 44, side: 24, legend: 13, wall: 6 };

function pictureSize() {
  const { width, height } = byId("picture").getBoundingClientRect();
  return { width: width || 800, height: height || 600 };
}

// What the legend takes of the picture: it has several lines where the window is narrow.
const rimBelow = () => document.querySelector(".legend").offsetHeight + RIMS.legend;

function applyCamera() {
  drawing.root.setAttribute("transform", `translate(${camera.x.toFixed(2)} ${camera.y.toFixed(2)}) scale(${camera.scale.toFixed(4)})`);
  byId("picture").classList.toggle("far", camera.scale < SCALES.texts);
  drawNear();
  tellFollow();
  if (!playing.motion) drawMap();
}

// Where the picture has the whole net there is nothing to follow, and the button isn't lit.
function tellFollow() { byId("follow").disabled = isWhole(); }

function centre(x, y) {
  const { width, height } = pictureSize();
  camera.x = width / 2 - x * camera.scale;
  camera.y = height / 2 - y * camera.scale;
  applyCamera();
}

// The bounds of the net with what is put beside its nodes along the run: at the left of an operator what its fork keeps, at the right of
// Root the answer.
function wholeBounds() {
  const bounds = { ...view.layout.bounds };
  const { entry, glyph } = sizesNow();
  for (const { id, name } of view.net.nodes) {
    const { x, width } = view.layout.places[id];
    if (FORKING.has(name)) bounds.left = Math.min(bounds.left, x - width / 2 - 3 - (14 + 6 * entry) * glyph);
    if (name === "Root") bounds.right = Math.max(bounds.right, x + width / 2 + 10 + answerWidth(view.run.trace.value ?? "") * glyph);
  }
  return bounds;
}
const FORKING = new Set(["Plus", "Minus", "Times"]);

// The whole net, with some room at its sides. On the wall the letters have that room.
function showAll() {
  const { width, height } = pictureSize();
  const { left, right, top, bottom } = view.wall ? wholeBounds() : view.layout.bounds;
  const below = rimBelow();
  const above = byId("fit").offsetParent ? RIMS.above : RIMS.legend;
  const most = view.wall ? SCALES.wallWhole : SCALES.whole;
  const byX = view.wall ? (width - 2 * RIMS.wall) / (right - left) : width / (right - left + 120);
  const scale = Math.min(byX, (height - above - below) / (bottom - top + 14), most);
  camera.scale = Math.max(scale, SCALES.least);
  centre((left + right) / 2, (top + bottom) / 2 + (below - above) / 2 / camera.scale);
}

// Whether the picture has the whole net.
function isWhole() {
  const { width, height } = pictureSize();
  const { left, right, top, bottom } = view.layout.bounds;
  const within = (low, high, at, size) => low * camera.scale + at > -1 && high * camera.scale + at < size + 1;
  return within(left, right, camera.x, width) && within(top, bottom, camera.y, height);
}

// The whole net where it is legible so, and on a tour; else the token at a legible size.
function showHome() {
  showAll();
  if (tour.at >= 0 || camera.scale >= (view.wall ? wallScale() : SCALES.legible)) return;
  const { x, y } = focusPoint();
  const { width, height } = pictureSize();
  camera.scale = view.wall ? wallScale() : SCALES.close;
  Object.assign(camera, withinNet(width / 2 - x * camera.scale, height / 2 - y * camera.scale));
  applyCamera();
  gather();
  uncover();
}

// The live tokens that a window of this size holds, from the one that is looked at on to those that are farther, as bounds of the net.
const GATHER = { beside: 70, above: 40, most: 60 };
function gathered(width, height) {
  const focus = focusPoint();
  const far = ({ x, y }) => Math.hypot(x - focus.x, y - focus.y);
  const points = [...glyphs.values()].slice(0, GATHER.most).map(glyph => glyph.place).sort((one, two) => far(one) - far(two));
  const bounds = { left: focus.x, right: focus.x, top: focus.y, bottom: focus.y };
  for (const { x, y } of points) {
    const [left, right] = [Math.min(bounds.left, x), Math.max(bounds.right, x)];
    const [top, bottom] = [Math.min(bounds.top, y), Math.max(bounds.bottom, y)];
    if (right - left > width - 2 * GATHER.beside || bottom - top > height - 2 * GATHER.above) continue;
    Object.assign(bounds, { left, right, top, bottom });
  }
  return bounds;
}

// For a wall: has the live tokens in the window, as many as there is room for at a legible size.
function gather() {
  if (!view.wall || !view.follow || isWhole()) return;
  const { width, height } = pictureSize();
  const room = height - RIMS.above - RIMS.legend;
  const { left, right, top, bottom } = gathered(width / wallScale(), room / wallScale());
  const fits = Math.min(width / (right - left + 2 * GATHER.beside), room / (bottom - top + 2 * GATHER.above));
  const scale = Math.min(camera.scale, Math.max(fits, wallScale()));
  if (scale < camera.scale) zoomTo(scale, width / 2, height / 2);
  // The place nearest to `at` at which the net between `from` and `to` lies between two edges of the window.
  const nearest = (at, from, to, before, after) => {
    const [least, most] = [before - from * scale, after - to * scale];
    return least > most ? (least + most) / 2 : Math.min(most, Math.max(least, at));
  };
  const x = nearest(camera.x, left - GATHER.beside, right + GATHER.beside, 0, width);
  const y = nearest(camera.y, top - GATHER.above, bottom + GATHER.above, RIMS.above, height - RIMS.legend);
  if (Math.abs(x - camera.x) + Math.abs(y - camera.y) < 0.5) return;
  Object.assign(camera, { x, y });
  applyCamera();
}

// The place of the camera that is nearest to x and y and shows no more than a rim of what is beside the net. The map has its own room.
function withinNet(x, y) {
  const { width, height } = pictureSize();
  const { left, right, top, bottom } = view.layout.bounds;
  const above = width < mapLeast() ? RIMS.above : mapTop() + mapMeasure().height + 14;
  const within = (at, low, high, size, before, after) => {
    const most = before - low * camera.scale;
    const least = size - after - high * camera.scale;
    return least > most ? (most + least) / 2 : Math.min(most, Math.max(least, at));
  };
  return { x: within(x, left, right, width, RIMS.side, RIMS.side), y: within(y, top, bottom, height, above, rimBelow()) };
}

// Where the move that is shown happened.
function focusPoint() {
  const shown = shownToken();
  if (shown) return restPoint(shown.token);
  const move = toldMove();
  return view.layout.places[move ? move.node : view.net.nodes.length - 1];
}

// Moves only as far as is needed to have a point well inside the picture, or near its edge where the net ends there; `share` is how much
// of that at once.
function follow(point, share) {
  if (!view.follow || isWhole()) return;
  const { width, height } = pictureSize();
  const { left, right, top, bottom } = view.layout.bounds;
  const off = (place, size) => {
    const rim = size * 0.24;
    return place < rim ? rim - place : place > size - rim ? size - rim - place : 0;
  };
  const byX = (right - left) * camera.scale < width - 40 ? 0 : off(point.x * camera.scale + camera.x, width);
  const byY = (bottom - top) * camera.scale < height - 40 ? 0 : off(point.y * camera.scale + camera.y, height);
  if (byX === 0 && byY === 0) return;
  const { x, y } = withinNet(camera.x + byX, camera.y + byY);
  const [moveX, moveY] = [byX === 0 ? 0 : x - camera.x, byY === 0 ? 0 : y - camera.y];
  if (Math.abs(moveX) + Math.abs(moveY) < 0.5) return;
  camera.x += moveX * share;
  camera.y += moveY * share;
  applyCamera();
}

// What lies over the picture: its buttons, the map, the legend, the words of a signature.
function covers() {
  const { left, top } = byId("picture").getBoundingClientRect();
  const seen = [...document.querySelectorAll("#net .tools, #map, #net .legend, #chain")].filter(it => it.offsetParent);
  return seen.map(it => {
    const box = it.getBoundingClientRect();
    return { left: box.left - left, top: box.top - top, right: box.right - left, bottom: box.bottom - top };
  });
}

// Moves the picture a little where something lies over a token, so that as many tokens as possible are seen, above all the one that is
// looked at, and the node of the move.
const UNCOVER = { steps: [0, -50, 50, -100, 100, -160, 160, -220, 220], rim: 24, most: 60 };
function uncover() {
  if (!view.follow || playing.motion || tour.at >= 0 || (view.wall && isWhole())) return;
  const boxes = covers();
  const { width, height } = pictureSize();
  const focus = focusPoint();
  const points = [...glyphs.values()].slice(0, UNCOVER.most).map(glyph => glyph.place);
  const move = toldMove();
  if (move) points.unshift(view.layout.places[move.node]);
  const onScreen = ({ x, y }) => ({ x: x * camera.scale + camera.x, y: y * camera.scale + camera.y });
  const places = [focus, ...points].map(onScreen);
  const { rim } = UNCOVER;
  const isCovered = (x, y) => boxes.some(it => x > it.left - rim && x < it.right + rim && y > it.top - rim && y < it.bottom + rim);
  const isOut = (x, y) => x < rim || y < rim || x > width - rim || y > height - rim;
  if (!places.some(({ x, y }) => isCovered(x, y)) && !isOut(places[0].x, places[0].y)) return;
  let best = null;
  for (const byX of UNCOVER.steps) for (const byY of UNCOVER.steps) {
    let cost = (Math.abs(byX) + Math.abs(byY)) / 400;
    places.forEach(({ x, y }, at) => {
      const weight = at === 0 ? 100 : move && at === 1 ? 0.9 : 1;
      if (isCovered(x + byX, y + byY) || isOut(x + byX, y + byY)) cost += weight;
    });
    if (!best || cost < best.cost) best = { byX, byY, cost };
  }
  if (best.byX === 0 && best.byY === 0) return;
  camera.x += best.byX;
  camera.y += best.byY;
  applyCamera();
}

// Larger or smaller, with this point of the picture (its middle where none is given) left where it is.
function zoom(factor, atX = pictureSize().width / 2, atY = pictureSize().height / 2) {
  camera.moved = true;
  zoomTo(Math.min(SCALES.most, Math.max(SCALES.least, camera.scale * factor)), atX, atY);
}

function zoomTo(scale, atX, atY) {
  const ratio = scale / camera.scale;
  camera.x = atX - (atX - camera.x) * ratio;
  camera.y = atY - (atY - camera.y) * ratio;
  camera.scale = scale;
  applyCamera();
}

function pan(byX, byY) {
  camera.moved = true;
  camera.x += byX;
  camera.y += byY;
  applyCamera();
}
