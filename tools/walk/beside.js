// A second run beside the one that is shown, and in step with it: behind as many moves, as many rounds, or as many calls. It can be another
// schedule of the same program, or the program by value beside it by name. Its net is drawn whole, and both strips lie on one scale.

const beside = {
  // What it was opened from; its run and its layout; the same run in rounds with where each begins, made when it is first asked for.
  data: null, run: null, layout: null, together: null,
  // The paths of its wires, and the group of its tokens.
  paths: [], tokens: null,
  // Whether both go call by call.
  byCalls: false,
};

function shownData() {
  const { name, file, program, netText: net, traceText: trace, stepsText: steps, address } = view;
  return { name, file, program, net, trace, steps, address };
}

// Opens once more what was shown, with its place in the address.
function reopen(data) {
  openWalk(data);
  view.address = data.address;
}

// Puts a run beside.
function putBeside(data) {
  const net = readNet(data.net);
  const run = new Run(readTrace(data.trace), net, () => {});
  Object.assign(beside, { data, run, layout: new Layout(net), together: null });
  document.body.classList.add("two");
  byId("beside").hidden = false;
  byId("beside-name").textContent = data.name;
  drawBeside(net);
  tellKeep();
  if (!camera.moved) showHome();
  tellBeside();
}

function putAway() {
  Object.assign(beside, { data: null, run: null, layout: null, together: null, paths: [], tokens: null });
  document.body.classList.remove("two");
  byId("beside").hidden = true;
  setByCalls(false);
  tellKeep();
}

function setByCalls(on) {
  if (on && !beside.run) return;
  if (on && view.rounds) setRounds(false);
  beside.byCalls = on;
  byId("beside-by").textContent = on ? "by calls" : "by moves";
  byId("beside-by").setAttribute("aria-pressed", on);
  tellBeside();
}

// Both change places, each behind as many moves as before.
function changePlaces() {
  const [made, inOrder, { data }] = [wayMade(), view.rounds !== null, beside];
  const own = shownData();
  reopen(data);
  putBeside(own);
  if (inOrder) setRounds(true);
  jump(wayPlace(made));
}

const pressKeep = () => { if (beside.run) changePlaces(); else putBeside(shownData()); };

function tellKeep() {
  byId("keep").textContent = beside.run ? "change places" : "keep beside";
}

function drawBeside(net) {
  const { layout } = beside;
  const { left, right, top, bottom } = layout.bounds;
  const picture = byId("beside-picture");
  beside.paths = net.wires.map(wire => drawWire(wire, layout));
  beside.tokens = shape("g");
  picture.replaceChildren(shape("g", {}, ...layout.frames.map(drawFrame)), shape("g", {}, ...beside.paths),
    shape("g", {}, ...net.nodes.map(node => drawNode(node, layout.places[node.id]))), shape("g", { id: "beside-mark" }), beside.tokens);
  picture.setAttribute("viewBox", [left - 60, top - 24, right - left + 120, bottom - top + 48].map(Math.round).join(" "));
}

// The run that goes in step, how far it is of how many, and what they are; its place and its length on the strip.
function besideWay() {
  const made = wayMade();
  const { length } = beside.run;
  if (beside.byCalls) {
    const calls = callsIn(beside.run);
    const own = callsIn(view.run).filter(place => place <= view.run.state.at).length;
    const at = made === view.run.length ? length : own > calls.length ? length : own === 0 ? 0 : calls[own - 1];
    return { run: beside.run, at, made: own, of: calls.length, unit: "calls", isOver: at === length, place: at, length };
  }
  if (!view.rounds) {
    const at = Math.min(made, length);
    return { run: beside.run, at, made, of: length, unit: "moves", isOver: made >= length, place: at, length };
  }
  if (whyNoRounds(beside.run) !== null) return null;
  if (!beside.together) {
    const { text, starts } = inRounds(beside.run);
    beside.together = { run: new Run(readTrace(text), beside.run.net, () => {}), starts };
  }
  const { run, starts } = beside.together;
  const of = starts.length - 1;
  const place = Math.min(made, of);
  return { run, at: starts[place], made, of, unit: "rounds", isOver: made >= of, place, length: of };
}

function tellBeside() {
  if (!beside.run) return;
  const way = besideWay();
  byId("beside-tokens").textContent = "";
  beside.tokens.replaceChildren();
  byId("beside-mark").replaceChildren();
  if (way === null) { byId("beside-say").textContent = whyNoRounds(beside.run); return; }
  const { run, at, made, of, unit, isOver } = way;
  const { live, answer } = run.go(at);
  const move = run.lastMove();
  for (const [ticket, token] of live) beside.tokens.append(besideToken(ticket, token));
  if (move) {
    const node = drawNode(run.net.nodes[move.node], beside.layout.places[move.node]);
    node.classList.add("at");
    byId("beside-mark").append(node);
  }
  const when = `${Math.min(made, of)} of ${of} ${unit}` + (isOver ? ", and it is over" : "");
  byId("beside-say").textContent = move ? `${when}. ${ruleOf(move).title}.` : `${when}. The run begins.`;
  const count = live.size === 1 ? "1 live token" : `${live.size} live tokens`;
  byId("beside-tokens").textContent = answer === null ? count : `value ${answer}`;
  tellBoth();
  drawBoth(way);
}

// A token where it waits on its wire.
function besideToken(ticket, token) {
  const told = [ticket, token.value, token.direction, token.wire].join(" ");
  const glyph = { group: shape("g", { class: "token", "data-token": told }), looks: "" };
  dressGlyph(glyph, ticket, token, colour(ticket));
  const { x, y } = restOn(beside.paths[token.wire], token);
  glyph.group.setAttribute("transform", placed(x, y, 1));
  return glyph.group;
}

// The numbers of both runs, each with what it counts.
function numbersOf(run) {
  const { value, moves } = run.trace;
  const span = new Span();
  for (let at = 0; at < run.length; at++) span.take(run.move(at));
  const isWhole = whyNoRounds(run) === null;
  return [["value", value ?? "none"], ["moves", moves], ["rounds", isWhole ? span.rounds : "–"], ["at once", isWhole ? span.most : "–"],
    ["forks", run.marks.filter(mark => mark.kind === "fork").length]];
}

function tellBoth() {
  const own = view.alone.run;
  if (byId("both").of === own && byId("both").beside === beside.run) return;
  Object.assign(byId("both"), { of: own, beside: beside.run });
  const [one, two] = [numbersOf(own), numbersOf(beside.run)];
  const cells = (tag, texts) => texts.map(text => element(tag, {}, String(text)));
  byId("both").replaceChildren(element("tr", {}, element("th", {}), ...cells("th", one.map(([name]) => name))),
    element("tr", {}, element("th", {}, "left"), ...cells("td", one.map(([, number]) => number))),
    element("tr", {}, element("th", {}, "right"), ...cells("td", two.map(([, number]) => number))));
}

// Both strips on one scale, with where each is.
const BOTH = { lane: 22, apart: 8 };
function drawBoth(way) {
  const canvas = byId("beside-strips");
  const [width, height] = [canvas.clientWidth || 300, 2 * BOTH.lane + BOTH.apart];
  const brush = sizedCanvas(canvas, width, height);
  const length = Math.max(wayLength(), way.length, 1);
  const colours = [...Array(COLOURS).keys()].map(number => styleValue("--k" + number));
  const lanes = [{ run: view.run, starts: view.rounds, made: wayMade(), of: wayLength() },
    { run: way.run, starts: view.rounds ? beside.together.starts : null, made: way.place, of: way.length }];
  const most = Math.max(...lanes.map(({ starts, of }) => starts ? widest(starts, 0, of) : 1));
  lanes.forEach(({ run, starts, made, of }, row) => {
    const top = row * (BOTH.lane + BOTH.apart);
    for (let x = 0; x < width * of / length; x++) {
      const from = Math.min(of - 1, Math.floor(x / width * length));
      const to = Math.max(from + 1, Math.min(of, Math.floor((x + 1) / width * length)));
      const tall = starts ? widest(starts, from, to) / most * BOTH.lane : BOTH.lane;
      brush.fillStyle = starts ? styleValue("--accent") : colours[run.ticketOf[from] % COLOURS];
      brush.fillRect(x, top + BOTH.lane - tall, 1.02, tall);
    }
    brush.fillStyle = styleValue("--ink");
    brush.fillRect(Math.min(width - 2, made / length * width), top, 2, BOTH.lane);
  });
}

// The most moves of a round, from one round up to another.
function widest(starts, from, to) {
  let most = 0;
  for (let at = from; at < to; at++) most = Math.max(most, starts[at + 1] - starts[at]);
  return most;
}
