// The whole net in small, with all tokens and what the picture shows, where the picture shows only a part.

const MAP = { width: 210, height: 130, narrow: 0.7, rim: 4, tokens: 400, least: 560, wallLeast: 480, top: 10 };
let mapGround = null;

function forgetMap() { mapGround = null; }

function mapMeasure() {
  const { left, right, top, bottom } = view.layout.bounds;
  const width = right - left;
  const height = bottom - top;
  const share = innerWidth > 1000 ? 1 : MAP.narrow;
  const [most, tall] = [MAP.width * share, MAP.height * share];
  const least = Math.min(most / width, tall / height);
  const byX = Math.max(least, Math.min(most / width, 1));
  const byY = Math.max(least, Math.min(tall / height, 60 / height));
  return {
    byX, byY, width: Math.ceil(width * byX + 2 * MAP.rim), height: Math.ceil(height * byY + 2 * MAP.rim),
    x: place => (place - left) * byX + MAP.rim, y: place => (place - top) * byY + MAP.rim,
  };
}

// (On a wall the map is worth its room in a narrower picture.)
const mapLeast = () => view.wall ? MAP.wallLeast : MAP.least;

// Where there is no room beside the buttons the map is below them.
function mapTop() {
  const tools = document.querySelector("#net .tools");
  return mapMeasure().width + 20 < tools.offsetLeft ? MAP.top : tools.offsetTop + tools.offsetHeight + 6;
}

function drawMap() {
  const canvas = byId("map");
  const size = pictureSize();
  const { left, right, top, bottom } = view.layout.bounds;
  const fits = isWhole() || (!view.wall && (right - left) * camera.scale < size.width * 1.15 &&
    (bottom - top) * camera.scale < size.height * 1.15);
  canvas.hidden = size.width < mapLeast() || fits;
  if (canvas.hidden) return;
  canvas.style.top = mapTop() + "px";
  const measure = mapMeasure();
  if (!mapGround) mapGround = drawMapGround(measure);
  canvas.style.width = measure.width + "px";
  canvas.style.height = measure.height + "px";
  const brush = sizedCanvas(canvas, measure.width, measure.height);
  brush.drawImage(mapGround, 0, 0, measure.width, measure.height);
  let count = 0;
  for (const [ticket, token] of view.run.state.live) {
    if (++count > MAP.tokens) break;
    const { x, y } = restPoint(token);
    brush.fillStyle = styleValue("--k" + tokenNumber(ticket) % COLOURS);
    brush.fillRect(measure.x(x) - 2, measure.y(y) - 2, 4, 4);
  }
  brush.strokeStyle = styleValue("--accent");
  brush.lineWidth = 1.5;
  brush.strokeRect(measure.x(-camera.x / camera.scale), measure.y(-camera.y / camera.scale),
    Math.max(4, size.width / camera.scale * measure.byX), Math.max(4, size.height / camera.scale * measure.byY));
}

function drawMapGround(measure) {
  const canvas = document.createElement("canvas");
  const brush = sizedCanvas(canvas, measure.width, measure.height);
  const colours = { fix: styleValue("--fix-line"), box: styleValue("--box-line") };
  brush.globalAlpha = 0.6;
  for (const { left, right, top, bottom, fix } of view.layout.frames) {
    brush.strokeStyle = fix ? colours.fix : colours.box;
    brush.strokeRect(measure.x(left), measure.y(top), (right - left) * measure.byX, (bottom - top) * measure.byY);
  }
  brush.globalAlpha = 0.8;
  brush.fillStyle = styleValue("--faint");
  for (const { x, y } of view.layout.places) brush.fillRect(measure.x(x) - 1, measure.y(y) - 0.7, 2, 1.4);
  return canvas;
}

// A press on the map moves the picture there.
function pressMap(event) {
  const rect = byId("map").getBoundingClientRect();
  const measure = mapMeasure();
  const { left, top } = view.layout.bounds;
  camera.moved = true;
  centre((event.clientX - rect.left - MAP.rim) / measure.byX + left, (event.clientY - rect.top - MAP.rim) / measure.byY + top);
}
