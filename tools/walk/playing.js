// Going along the run: by jumps, move by move with motion, and by itself.

const playing = { on: false, speed: 1, motion: null, told: 0 };
const SPEEDS = [0.25, 0.5, 1, 2, 4, 10, 50, 500];
const MOVE_TIME = 620;
const wantsStillness = matchMedia("(prefers-reduced-motion: reduce)");

// Shows the state behind so many lines of the trace, and looks at a token.
function show(at, quiet = false, chosen = null) {
  endMotion();
  view.chosen = chosen;
  at = Math.max(0, Math.min(view.run.length, at));
  const end = wholeWay(at);
  view.told = end === at ? null : at - 1;
  view.run.go(end);
  view.chosen ??= guessedTicket();
  drawState();
  tellState(quiet);
}

// Everything that tells the state in words, and the picture's marks.
function tellState(quiet) {
  const { run } = view;
  const move = toldMove();
  markNodes(nodesOfLast(move));
  follow(focusPoint(), 1);
  gather();
  uncover();
  const now = performance.now();
  // While many moves pass in a second, words come now and then.
  const passing = playing.on && playing.speed > 20 && run.state.at < run.length && now - playing.told < 120;
  if (!passing) {
    playing.told = now;
    drawTrail();
    drawCard();
    tellMove(move);
    tellWaiting();
    markProgram(move ? move.node : null);
    tellTables();
    tellSwap();
    scrollLog();
    tellSteps();
    tellBeside();
    askGuess();
    view.moved();
  }
  document.body.classList.toggle("begun", run.state.at > 0);
  drawStrip();
  byId("slider").value = wayMade();
  const unit = view.rounds ? "rounds" : "moves";
  byId("slider").setAttribute("aria-valuetext", `${wayFirst() + wayMade()} of ${wayFirst() + wayLength()} ${unit}`);
  if (document.activeElement !== byId("now") || !playing.on) byId("now").value = wayFirst() + wayMade();
  const rule = move ? ruleOf(move) : null;
  const round = move && view.rounds ? byId("round-title").textContent + ". " : "";
  const text = move ? `${round}${momentText(move)}: ticket ${move.ticket}. ${rule.title}. ${rule.say}` : "The run begins.";
  byId("moment").textContent = move ? momentText(move) : "";
  const count = run.state.live.size;
  byId("picture").setAttribute("aria-label", `A net with ${count} live ${count === 1 ? "token" : "tokens"}. ${text}`);
  if (!quiet) byId("announce").textContent = text + stacksHeard(move);
  if (!playing.on) rememberPlace();
}

// Both stacks of the token behind a move, in words.
function stacksHeard(move) {
  if (!move || !move.after) return "";
  const { work, boxes } = view.questions.given[move.number - view.run.first];
  return ` Work stack: ${stackWords(work, false)}. Box stack: ${stackWords(boxes, true)}.`;
}

// One number for a moment: how many moves are made. The last of them has the number before it.
const momentText = ({ number }) => view.rounds ? `After ${wayMade()} rounds (here move ${number})`
  : `After ${movesMade()} ${movesMade() === 1 ? "move" : "moves"} (the last was move ${number})`;

// The number of moves, or of rounds, is in the address with what is shown besides, so that a place can be passed on.
let placeTimer = 0;
function rememberPlace() {
  clearTimeout(placeTimer);
  const place = () => view.rounds ? "round=" + wayMade() : "move=" + movesMade();
  const switches = () => Object.entries({ types: view.types, rules: view.rules, wall: view.wall, guess: guess.on });
  const shown = () => switches().map(([name, on]) => on ? `&${name}=1` : "").join("") + view.addressEnd();
  placeTimer = setTimeout(() => history.replaceState(null, "", "#" + view.address + place() + shown()), 300);
}

function endMotion() {
  if (!playing.motion) return;
  cancelAnimationFrame(playing.motion.frame);
  const { finish } = playing.motion;
  playing.motion = null;
  finish();
}

// Makes the next move, or the next round, with motion: the token runs into the node and out of it again.
function step(then = () => {}) {
  const { run } = view;
  if (run.state.at >= run.length) { pause(); return; }
  const time = MOVE_TIME / playing.speed;
  if (wantsStillness.matches || time < 25 || document.hidden) { show(wayOn(1), playing.on); then(); return; }
  endMotion();
  const at = run.state.at;
  const moves = movesAtOnce(at);
  const move = moves[moves.length - 1];
  drawing.layers.card.replaceChildren();
  const moved = moves.map(it => ({ move: it, glyphsMoved: startMotion(it) }));
  tellMove(move);
  markProgram(move.node);
  markNodes(nodesOfLast(move));
  const begin = performance.now();
  const frame = now => {
    const share = Math.min(1, (now - begin) / time);
    const eased = share < 0.5 ? 2 * share * share : 1 - (2 - 2 * share) ** 2 / 2;
    for (const it of moved) drawMotion(it.move, it.glyphsMoved, eased, it.move === move);
    if (share < 1) { playing.motion.frame = requestAnimationFrame(frame); return; }
    endMotion();
    then();
  };
  const finish = () => {
    view.told = null;
    for (const { glyphsMoved } of moved) for (const { glyph } of glyphsMoved) glyph.group.style.opacity = 1;
    run.go(at + moves.length);
    view.chosen = guessedTicket();
    drawState();
    tellState(playing.on);
  };
  playing.motion = { frame: requestAnimationFrame(frame), finish };
}

// The glyphs that a move moves, each with the token that it becomes; without one where the token ends.
function startMotion(move) {
  const own = moveColour(move);
  const glyph = glyphOf(move.ticket);
  dressGlyph(glyph, move.ticket, move.before, own);
  drawing.layers.tokens.append(glyph.group);
  const moved = [{ glyph, ticket: move.ticket, after: move.after, colour: own }];
  if (move.kind === "fork") {
    const second = glyphOf(move.ticket2);
    second.group.style.opacity = 0;
    const other = view.colourBy === "ticket" ? colour(move.ticket2) : own;
    dressGlyph(second, move.ticket2, move.after2, other);
    moved.push({ glyph: second, ticket: move.ticket2, after: move.after2, colour: other });
  }
  return moved;
}

const between = (from, to, share) => ({ x: from.x + (to.x - from.x) * share, y: from.y + (to.y - from.y) * share });

// A third of the time into the node, then across it, then to where the token rests.
function drawMotion(move, glyphsMoved, share, isFollowed) {
  const { before } = move;
  const rest = restDistance(before);
  const end = before.direction === "up" ? 0 : wireLength(before.wire);
  const into = 0.34;
  if (share < into) {
    putGlyph(glyphsMoved[0].glyph, pointOn(before.wire, rest + (end - rest) * share / into));
    return;
  }
  const left = (share - into) / (1 - into);
  const enters = pointOn(before.wire, end);
  for (const { glyph, ticket, after, colour: own } of glyphsMoved) {
    if (!after) {
      putGlyph(glyph, between(enters, view.layout.places[move.node], left));
      glyph.group.style.opacity = 1 - left;
      continue;
    }
    glyph.group.style.opacity = 1;
    dressGlyph(glyph, ticket, after, own);
    const point = motionPoint(enters, after, left);
    putGlyph(glyph, point);
    if (isFollowed && ticket === move.ticket) follow(point, 0.16);
  }
}

function motionPoint(enters, after, share) {
  const across = 0.3;
  const start = after.direction === "up" ? wireLength(after.wire) : 0;
  if (share < across) return between(enters, pointOn(after.wire, start), share / across);
  return pointOn(after.wire, start + (restDistance(after) - start) * (share - across) / (1 - across));
}

function play() {
  if (view.run.state.at >= view.run.length) show(0);
  playing.on = true;
  tellPlaying();
  playOn();
}

function playOn() {
  const { run } = view;
  if (!playing.on) return;
  if (run.state.at >= run.length) { pause(); return; }
  const time = MOVE_TIME / playing.speed;
  if (time >= 25 && !wantsStillness.matches && !document.hidden) { step(playOn); return; }
  show(wayOn(Math.max(1, Math.round(16 / time))), true);
  setTimeout(playOn, wantsStillness.matches ? Math.max(time, 16) : 16);
}

function pause() {
  playing.on = false;
  tellPlaying();
  endMotion();
  if (view.run) rememberPlace();
}

function tellPlaying() {
  byId("play").textContent = playing.on ? "❚❚ Pause" : "▶ Play";
  byId("play").setAttribute("aria-pressed", playing.on);
}

function setSpeed(speed) {
  playing.speed = speed;
  byId("speed").value = String(speed);
}

const changeSpeed = by => setSpeed(SPEEDS[Math.max(0, Math.min(SPEEDS.length - 1, SPEEDS.indexOf(playing.speed) + by))]);

function jump(at) {
  pause();
  show(at);
}

function forth(count = 1) {
  pause();
  if (count === 1) step(); else show(wayOn(count));
}

function back(count = 1) {
  pause();
  show(wayOn(-count));
}

// To the state behind the next fork, join or answer, or the last one before; where two runs go call by call, behind the next call.
function nextMark(direction) {
  const { run } = view;
  pause();
  const places = beside.byCalls ? callsIn(run) : run.marks.map(mark => mark.at + 1);
  const { at } = run.state;
  const found = direction > 0 ? places.find(place => wholeWay(place) > at) : places.findLast(place => wholeWay(place) < at);
  show(found !== undefined ? found : direction > 0 ? run.length : 0);
}

// To the next move (or the last one before) for which a list has this number: at a node, or of a ticket. Behind the last comes the first.
function nextOf(list, wanted, direction) {
  const { run } = view;
  pause();
  const from = view.told ?? run.state.at - 1;
  for (let count = 1; count <= run.length; count++) {
    const at = (((from + direction * count) % run.length) + run.length) % run.length;
    if (list[at] === wanted) { show(at + 1); return; }
  }
}

// From a question to its answer and back: the place on the same wire with the same stacks, the other way round. {at, chosen} or null.
function otherEnd() {
  const { run } = view;
  const shown = shownToken();
  if (!shown || isCut(shown.token)) return null;
  const { token } = shown;
  const same = other => other && other.wire === token.wire && other.work === token.work && other.boxes === token.boxes &&
    other.direction !== token.direction && (other.value === "?") !== (token.value === "?");
  if (token.value === "?") {
    for (let at = run.state.at; at < run.length; at++) if (same(run.move(at).after)) return { at: at + 1, chosen: null };
    return null;
  }
  for (let at = run.state.at - 2; at >= 0; at--) {
    const move = run.move(at);
    if (same(move.after)) return { at: at + 1, chosen: null };
    if (same(move.after2)) return { at: at + 1, chosen: move.ticket2 };
  }
  const first = run.trace.live.find(({ words }) => same(tokenOf(words, 2)));
  return first ? { at: 0, chosen: Number(first.words[1]) } : null;
}

function goOther() {
  const found = otherEnd();
  pause();
  if (found === null) byId("announce").textContent = "The other end isn't in this trace, or the stacks are cut, so that it can't be told.";
  else show(found.at, false, found.chosen);
}

function tellOther() {
  const shown = shownToken();
  const button = byId("other");
  button.textContent = shown && shown.token.value !== "?" ? "◂ its question here" : "▸ its answer here";
  button.disabled = !shown || isCut(shown.token);
}
