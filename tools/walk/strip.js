// The strip: who moved when, with a lane for each worker; forks above and joins below. The slider below it has the same ends.

const STRIP = { rim: 8, names: 14, marks: 6, ground: null };

function forgetStrip() { STRIP.ground = null; }

function stripMeasure() {
  const canvas = byId("strip");
  const lanes = view.run.workers;
  const height = view.rounds ? 48 : lanes === 1 ? 20 : Math.min(110, 10 + lanes * Math.max(2, Math.min(10, Math.round(100 / lanes))));
  canvas.style.height = height + "px";
  const left = STRIP.rim + (lanes > 1 ? STRIP.names : 0);
  byId("slider").style.marginLeft = left - STRIP.rim + "px";
  byId("slider").style.width = `calc(100% - ${left - STRIP.rim}px)`;
  const width = (canvas.clientWidth || 600) - left - STRIP.rim;
  return { lanes, height, left, width, whole: canvas.clientWidth || 600, lane: (height - 10) / lanes };
}

function drawStrip() {
  const measure = stripMeasure();
  if (!STRIP.ground) STRIP.ground = drawStripGround(measure);
  const brush = sizedCanvas(byId("strip"), measure.whole, measure.height);
  brush.drawImage(STRIP.ground, 0, 0, measure.whole, measure.height);
  brush.fillStyle = styleValue("--ink");
  const share = wayMade() / Math.max(1, wayLength());
  brush.fillRect(measure.left + share * measure.width - 1, 0, 2, measure.height);
}

function drawStripGround(measure) {
  const { run } = view;
  const canvas = document.createElement("canvas");
  const brush = sizedCanvas(canvas, measure.whole, measure.height);
  const colours = [...Array(COLOURS).keys()].map(number => styleValue("--k" + number));
  const { lanes, left, width, height, lane } = measure;
  if (view.rounds) {
    brush.fillStyle = styleValue("--accent");
    drawWidths(brush, measure);
    brush.fillStyle = styleValue("--ink");
    drawStripMarks(brush, measure);
    return canvas;
  }
  for (let x = 0; x < width; x++) {
    const from = Math.floor(x / width * run.length);
    const to = Math.min(run.length, Math.max(from + 1, Math.floor((x + 1) / width * run.length)));
    const seen = new Set();
    // Of many moves in one column some are looked at.
    for (let at = from; at < to && seen.size < lanes; at += Math.max(1, (to - from) >> 5)) {
      const row = run.workerOf[at];
      if (seen.has(row)) continue;
      seen.add(row);
      brush.fillStyle = colours[moveNumber(at) % COLOURS];
      brush.fillRect(left + x, 5 + row * lane, 1.02, Math.max(1, lane - (lanes > 1 ? 1 : 0)));
    }
  }
  brush.fillStyle = styleValue("--ink");
  if (lanes > 1 && lane >= 8) {
    brush.font = "9px system-ui, sans-serif";
    for (let row = 0; row < lanes; row++) brush.fillText("w" + row, 2, 5 + row * lane + lane / 2 + 3);
  }
  drawStripMarks(brush, measure);
  return canvas;
}

// How many tokens move in each round, and in a column of many rounds how many at most. Above and below is room for the marks.
function drawWidths(brush, { left, width, height }) {
  const { rounds } = view;
  const wide = rounds.slice(1).map((end, at) => end - rounds[at]);
  const most = wide.reduce((one, two) => Math.max(one, two), 1);
  for (let x = 0; x < width; x++) {
    const from = Math.floor(x / width * wide.length);
    const to = Math.max(from + 1, Math.floor((x + 1) / width * wide.length));
    const tall = Math.max(...wide.slice(from, to)) / most * (height - 2 * STRIP.marks);
    brush.fillRect(left + x, height - STRIP.marks - tall, 1.02, tall);
  }
}

// The marks of the strip: forks above, and below what joins or ends. `place` is that of a move, or of a round; in rounds one mark stands
// for all of its kind in a round.
function stripMarks() {
  const marks = view.run.marks.map(({ at, kind }) => ({ place: view.rounds ? roundsUpTo(at + 1) - 1 : at, isFork: kind === "fork" }));
  return [...new Map(marks.map(mark => [mark.place + " " + mark.isFork, mark])).values()];
}

// Where there are too many to be told apart none is drawn.
function drawStripMarks(brush, { left, width, height }) {
  const marks = stripMarks();
  if (marks.length >= width / 4) return;
  for (const { place, isFork } of marks) drawStripMark(brush, left + (place + 0.5) / wayLength() * width, isFork, height);
}

// A fork points down from above, a join up from below.
function drawStripMark(brush, x, isFork, height) {
  const [edge, tip] = isFork ? [0, 5] : [height, height - 5];
  brush.beginPath();
  brush.moveTo(x - 3, edge);
  brush.lineTo(x + 3, edge);
  brush.lineTo(x, tip);
  brush.fill();
}

// The number of moves at a place of the strip.
function stripAt(event) {
  const measure = stripMeasure();
  const share = (event.clientX - byId("strip").getBoundingClientRect().left - measure.left) / measure.width;
  return wayPlace(Math.max(0, Math.min(wayLength(), Math.round(share * wayLength()))));
}

function tellStrip(event) {
  const at = Math.min(stripAt(event), view.run.length - 1);
  const move = at < 0 ? null : view.run.move(at);
  if (view.rounds) {
    const round = Math.max(1, roundsUpTo(at));
    byId("strip").title = `round ${round}: ${view.rounds[round] - view.rounds[round - 1]} moves`;
    return;
  }
  byId("strip").title = move ? `move ${move.number}: ticket ${move.ticket}, worker ${move.worker}, ${move.name} ${move.node}` : "";
}
