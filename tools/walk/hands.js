// Buttons, keys, pointer and files: what each does.

// Lays the net out and draws it for what is shown beside its wires and how large.
function layOutAnew() {
  endMotion();
  view.layout = new Layout(view.net, view.types, sizesNow());
  forgetMap();
  drawNet();
  drawState();
  if (camera.moved) centre(focusPoint().x, focusPoint().y); else showHome();
  tellState(true);
}

function setTypes(on) {
  view.types = on;
  byId("types").setAttribute("aria-pressed", on);
  layOutAnew();
}

function setRules(on) {
  view.rules = on;
  byId("rules").setAttribute("aria-pressed", on);
  layOutAnew();
}

function setFollow(on) {
  view.follow = on;
  byId("follow").setAttribute("aria-pressed", on);
  if (on) follow(focusPoint(), 1);
}

function setCard(on) {
  view.card = on;
  byId("card").setAttribute("aria-pressed", on);
  drawCard();
}

function setWall(on) {
  view.wall = on;
  byId("wall").setAttribute("aria-pressed", on);
  document.body.classList.toggle("wall", on);
  placeProgram();
  camera.moved = false;
  if (view.run) layOutAnew();
}

function setMenu(open) {
  document.querySelector("header").classList.toggle("open", open);
  byId("menu").setAttribute("aria-expanded", open);
}

function setColourBy(what) {
  view.colourBy = what;
  byId("colour-by").textContent = "colour by " + what;
  forgetStrip();
  show(view.run.state.at, true);
}

function setTheme(theme) {
  document.documentElement.dataset.theme = theme;
  if (!view.run) return;
  forgetStrip();
  forgetMap();
  drawStrip();
  drawMap();
}

function turnTheme() {
  const { theme } = document.documentElement.dataset;
  const dark = theme ? theme === "dark" : matchMedia("(prefers-color-scheme: dark)").matches;
  setTheme(dark ? "light" : "dark");
}

function listWire(wire) {
  view.onlyWire = wire;
  tellTables();
}

function fitAll() {
  camera.moved = true;
  showAll();
  drawCard();
}

const marked = () => toldMove();
const PAN = 60;

// The words of a signature, the tour and the menu, and then the wall or guessing.
function leave() {
  forgetChain();
  endTour();
  setMenu(false);
  if (view.wall) setWall(false); else if (guess.on) setGuess(false);
}

// What each key does. The list that the page shows is in page.html.
const KEYS = {
  " ": () => playing.on ? pause() : play(),
  ArrowRight: event => forth(event.shiftKey ? 10 : 1),
  ArrowLeft: event => back(event.shiftKey ? 10 : 1),
  Home: () => jump(0),
  End: () => jump(view.run.length),
  "]": () => nextMark(1),
  "[": () => nextMark(-1),
  n: () => marked() && nextOf(view.run.nodeOf, marked().node, 1),
  N: () => marked() && nextOf(view.run.nodeOf, marked().node, -1),
  m: () => marked() && nextOf(view.run.ticketOf, marked().ticket, 1),
  M: () => marked() && nextOf(view.run.ticketOf, marked().ticket, -1),
  o: goOther,
  g: () => byId("now").select(),
  r: () => setRounds(view.rounds === null),
  q: () => setGuess(!guess.on),
  f: () => setFollow(!view.follow),
  t: () => setTypes(!view.types),
  R: () => setRules(!view.rules),
  s: () => setCard(!view.card),
  c: () => setColourBy(COLOURED_BY[(COLOURED_BY.indexOf(view.colourBy) + 1) % COLOURED_BY.length]),
  d: turnTheme,
  w: () => setWall(!view.wall),
  b: pressKeep,
  y: () => setByCalls(!beside.byCalls),
  p: savePicture,
  P: printNet,
  x: () => { if (!byId("swap-save").disabled) saveSwap(); },
  0: fitAll,
  "+": () => zoom(1.25),
  "=": () => zoom(1.25),
  "-": () => zoom(0.8),
  h: () => pan(PAN, 0),
  j: () => pan(0, -PAN),
  k: () => pan(0, PAN),
  l: () => pan(-PAN, 0),
  ">": () => changeSpeed(1),
  "<": () => changeSpeed(-1),
  "?": () => byId("keys").showModal(),
  Escape: leave,
};

function pressKey(event) {
  if (!view.run || byId("keys").open || event.ctrlKey || event.metaKey || event.altKey) return;
  const { target, key } = event;
  if (target.matches("select, textarea, input:not([type=range], [type=checkbox])") || (target.matches("button, summary") && key === " ")) return;
  if (target.matches("#log, #program, .scroll") && ["Home", "End"].includes(key)) return;
  if (!Object.hasOwn(KEYS, key)) return;
  event.preventDefault();
  KEYS[key](event);
}

const BUTTONS = {
  first: KEYS.Home,
  "back-mark": KEYS["["],
  back: () => back(),
  play: KEYS[" "],
  forth: () => forth(),
  "next-mark": KEYS["]"],
  last: KEYS.End,
  fit: fitAll,
  larger: KEYS["+"],
  smaller: KEYS["-"],
  types: KEYS.t,
  rules: KEYS.R,
  follow: KEYS.f,
  card: KEYS.s,
  rounds: KEYS.r,
  "guess-on": KEYS.q,
  "guess-show": showGuessed,
  theme: turnTheme,
  wall: KEYS.w,
  "wall-off": KEYS.w,
  keep: KEYS.b,
  "beside-by": KEYS.y,
  "beside-away": putAway,
  menu: () => setMenu(byId("menu").getAttribute("aria-expanded") !== "true"),
  save: savePicture,
  print: () => print(),
  "print-net": KEYS.P,
  help: KEYS["?"],
  "help-close": () => byId("keys").close(),
  "colour-by": KEYS.c,
  other: goOther,
  "swap-save": saveSwap,
  "swap-run": () => view.runSchedule(swappedSchedule(view.run)),
  "live-all": () => listWire(null),
  "open-files": () => byId("files").click(),
  "open-first": () => byId("files").click(),
  "begin-tour": beginTour,
  "first-tour": beginTour,
  "tour-back": () => goOnTour(-1),
  "tour-on": () => goOnTour(1),
  "tour-end": endTour,
  "first-walk": () => openWalk(JSON.parse(byId("first-data").textContent)),
  "back-to-walk": () => { byId("nothing").hidden = true; },
};

// Buttons that work where nothing is open.
const ALWAYS = new Set(["menu", "theme", "help", "help-close", "open-files", "open-first", "first-walk", "begin-tour",
  "first-tour"]);

function joinHands() {
  for (const id in BUTTONS) byId(id).addEventListener("click", () => { if (view.run || ALWAYS.has(id)) BUTTONS[id](); });
  document.addEventListener("keydown", pressKey);
  byId("slider").addEventListener("input", () => jump(wayPlace(Number(byId("slider").value))));
  byId("now").addEventListener("change", () => jump(wayPlace(Number(byId("now").value) - wayFirst())));
  byId("speed").addEventListener("change", () => setSpeed(Number(byId("speed").value)));
  byId("strip").addEventListener("click", event => { if (view.run) jump(stripAt(event)); });
  byId("strip").addEventListener("pointermove", event => { if (view.run) tellStrip(event); });
  byId("map").addEventListener("click", pressMap);
  byId("log").addEventListener("scroll", () => { if (view.run) drawLog(); });
  byId("log").addEventListener("click", event => {
    const line = event.target.closest(".line");
    if (line) jump(Number(line.dataset.at) + 1);
  });
  byId("files").addEventListener("change", () => openFiles([...byId("files").files]));
  document.addEventListener("dragover", event => event.preventDefault());
  document.addEventListener("drop", event => {
    if (event.dataTransfer.files.length === 0) return;
    event.preventDefault();
    openFiles([...event.dataTransfer.files]);
  });
  addEventListener("beforeprint", beginSheet);
  addEventListener("afterprint", endSheet);
  addEventListener("hashchange", () => { if (view.run) goToAddress(); });
  // (A form below the picture takes of its room where the net as a whole stays as it is.)
  const sized = new ResizeObserver(() => {
    if (!view.run) return;
    forgetStrip();
    forgetMap();
    drawStrip();
    drawLog();
    if (!camera.moved) showHome(); else applyCamera();
    drawCard();
    if (view.wall) tellWaiting();
  });
  for (const id of ["net", "picture"]) sized.observe(byId(id));
  new ResizeObserver(stacksInSight).observe(byId("left"));
  joinRows(byId("waiting"), markWaiting);
  joinRows(byId("round-moves"));
  joinRows(byId("steps-rows"));
  byId("waiting").addEventListener("blur", () => markSpans("meant", []));
  joinPointer();
  joinGuess();
}

// The picture: dragged by one pointer, made larger by a wheel or by two fingers, and a press on a node or a pile.
function joinPointer() {
  const picture = byId("picture");
  const down = new Map();
  let pressed = null;
  const spread = () => {
    const [one, two] = [...down.values()];
    return { apart: Math.hypot(one.x - two.x, one.y - two.y), x: (one.x + two.x) / 2, y: (one.y + two.y) / 2 };
  };
  const placeOf = event => {
    const { left, top } = picture.getBoundingClientRect();
    return { x: event.clientX - left, y: event.clientY - top };
  };
  picture.addEventListener("wheel", event => {
    if (!view.run) return;
    event.preventDefault();
    const { x, y } = placeOf(event);
    zoom(Math.exp(-event.deltaY * 0.0015), x, y);
  }, { passive: false });
  picture.addEventListener("pointerdown", event => {
    if (!view.run) return;
    down.set(event.pointerId, placeOf(event));
    pressed = down.size === 1 ? { target: event.target, ...placeOf(event) } : null;
    picture.setPointerCapture(event.pointerId);
  });
  picture.addEventListener("pointermove", event => {
    const before = down.get(event.pointerId);
    if (!before) return;
    const now = placeOf(event);
    if (down.size === 1) {
      if (pressed && Math.hypot(now.x - pressed.x, now.y - pressed.y) < 4) return;
      pressed = null;
      pan(now.x - before.x, now.y - before.y);
    }
    const old = down.size === 2 ? spread() : null;
    down.set(event.pointerId, now);
    if (!old) return;
    const { apart, x, y } = spread();
    pan(x - old.x, y - old.y);
    if (old.apart > 0) zoom(apart / old.apart, x, y);
  });
  const lift = event => {
    if (event.type === "pointerup" && pressed && down.size === 1) pressPicture(pressed.target, event);
    pressed = null;
    down.delete(event.pointerId);
  };
  picture.addEventListener("pointerup", lift);
  picture.addEventListener("pointercancel", lift);
}

function pressPicture(target, event) {
  if (guess.on) { guessWire(event); return; }
  const node = target.closest(".node");
  const pile = target.closest(".pile");
  if (node) nextOf(view.run.nodeOf, Number(node.dataset.node), 1);
  else if (pile) listWire(Number(pile.dataset.wire));
}
