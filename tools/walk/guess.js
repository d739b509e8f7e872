// Guess the next move: the page keeps back what comes, and the student says where the token is then and what is on its stacks. What is said
// is held against the next line of the run, and right or wrong is told with the row that was applied.

// `tried` is the number of the move that was guessed at last, and `told` that of the move whose rule is told.
const guess = { on: false, right: 0, all: 0, tried: null, told: null };

// What a move does to its token: it goes on (a join too), it forks, or it ends.
const GUESSED = { solo: "on", joined: "on", fork: "forks", kept: "ends", answer: "ends" };
const GUESS_FIELDS = ["wire", "value", "work", "boxes"];
const GUESS_NAMES = { then: "what it does", wire: "the wire", value: "the value", work: "the work stack", boxes: "the box stack" };
const guessField = name => byId("guess-" + name);

const guessedMove = () => view.run.state.at < view.run.length ? view.run.move(view.run.state.at) : null;

function setGuess(on) {
  if (on && view.rounds) setRounds(false);
  Object.assign(guess, { on, right: 0, all: 0, tried: null, told: null });
  byId("guess").hidden = !on;
  byId("guess-on").setAttribute("aria-pressed", on);
  document.body.classList.toggle("guessing", on);
  if (!view.run) return;
  if (!camera.moved) showHome();
  jump(view.run.state.at);
}

// The token whose move is asked, looked at while it is.
const guessedTicket = () => guess.on && guessedMove() ? guessedMove().ticket : null;

// Asks the next move anew: the fields have the token as it is.
function askGuess() {
  if (!guess.on) return;
  const move = guessedMove();
  if (view.run.state.at === 0 || view.run.lastMove().number !== guess.told) guessField("said").textContent = "";
  for (const it of byId("guess").querySelectorAll("input, select, #guess-say, #guess-show")) it.disabled = move === null;
  tellCount();
  drawing.layers.guessed.replaceChildren();
  if (move === null) { byId("guess-asks").textContent = "The run is over: no move is left."; return; }
  const { before } = move;
  byId("guess-asks").replaceChildren(`Ticket ${move.ticket}, `, element("code", {}, traceToken(before)),
    ", moves next. Press the wire on which it is then, and say what it has there.");
  guessField("then").value = "on";
  guessField("wire").value = "";
  for (const name of ["value", "work", "boxes"]) guessField(name).value = before[name];
  tellGuessedThen();
}

const traceToken = ({ value, direction, wire, work, boxes }) => [value, direction, wire, work, boxes].join(" ");

// Only of a token that goes on there is more to say.
function tellGuessedThen() {
  for (const name of GUESS_FIELDS) guessField(name).disabled = guessField("then").value !== "on";
}

// A press on the picture: the nearest wire that isn't far.
const GUESS_REACH = 28;
function guessWire(event) {
  const { left, top } = byId("picture").getBoundingClientRect();
  const [x, y] = [(event.clientX - left - camera.x) / camera.scale, (event.clientY - top - camera.y) / camera.scale];
  let [found, least] = [null, GUESS_REACH / camera.scale];
  for (const { id } of view.net.wires) {
    const points = view.layout.points[id];
    for (let at = 1; at < points.length; at++) for (let share = 0; share <= 1; share += 0.04) {
      const [wireX, wireY] = curvePoint(points[at - 1], points[at], share);
      const far = Math.hypot(wireX - x, wireY - y);
      if (far < least) [found, least] = [id, far];
    }
  }
  if (found === null || guessField("then").disabled) return;
  guessField("then").value = "on";
  tellGuessedThen();
  guessField("wire").value = found;
  drawGuessed();
}

function drawGuessed() {
  const wire = guessField("wire").value;
  const style = "stroke:var(--accent);stroke-width:7;opacity:.5";
  const drawn = view.net.wires[wire] ? [shape("path", { d: wirePath(view.layout.points[wire]), style })] : [];
  drawing.layers.guessed.replaceChildren(...drawn);
}

// A stack as somebody writes it.
const writtenStack = text => text.replaceAll(/\s/g, "").replaceAll("·", ".") || "-";

// What isn't so of what was said, by the names of the fields.
function guessFaults(move, said) {
  if (said.then !== GUESSED[move.kind]) return ["then"];
  if (said.then !== "on") return [];
  const { after } = move;
  const isSo = {
    wire: Number(said.wire) === after.wire && /^\d+$/.test(said.wire), value: said.value === after.value,
    work: writtenStack(said.work) === after.work, boxes: writtenStack(said.boxes) === after.boxes,
  };
  return GUESS_FIELDS.filter(name => !isSo[name]);
}

// The row that was applied, in a line: `left ↓ s.m becomes conclusion ↓ l s.m`.
function rowInLine({ from, to }) {
  if (!from) return "";
  const arrow = { up: "↑", down: "↓" };
  const side = ([port, direction, work, boxes]) => `${port} ${arrow[direction]} ${work}` + (boxes === "t" ? "" : ` at ${boxes}`);
  return `, ${side(from)} becomes ${side(to)}`;
}

const tellCount = () => byId("guess-count").textContent = guess.all === 0 ? "" : `${guess.right} of ${guess.all} at the first go`;

// What is told below the fields, and how many were right. Where the form has more lines than before the picture has less room, and the net
// is fitted to it at once.
function tellGuess(kind, text) {
  const { height } = pictureSize();
  tellCount();
  guessField("said").className = kind;
  guessField("said").textContent = text;
  if (camera.moved || pictureSize().height === height) return;
  showHome();
  drawCard();
}

function sayGuess() {
  const move = guessedMove();
  if (!guess.on || !move) return;
  const said = Object.fromEntries(["then", ...GUESS_FIELDS].map(name => [name, guessField(name).value.trim()]));
  const faults = guessFaults(move, said);
  const rule = ruleOf(move);
  const isFirst = guess.tried !== move.number;
  guess.tried = move.number;
  if (isFirst) guess.all++;
  if (isFirst && faults.length === 0) guess.right++;
  const names = faults.map(name => GUESS_NAMES[name]).join(", ");
  if (faults.length === 0) tellGuess("right", `Right. ${rule.title}${rowInLine(rule)}. ${rule.say}`);
  else tellGuess("wrong", `Not so: ${names}. The rule is ${rule.title}${rowInLine(rule)}. Try again.`);
  guess.told = move.number;
  if (faults.length === 0) forth();
}

// Gives the move up.
function showGuessed() {
  const move = guessedMove();
  if (!move) return;
  if (guess.tried !== move.number) guess.all++;
  const rule = ruleOf(move);
  tellGuess("", `${rule.title}${rowInLine(rule)}. ${rule.say}`);
  guess.told = move.number;
  forth();
}

function joinGuess() {
  byId("guess").addEventListener("submit", event => { event.preventDefault(); sayGuess(); });
  guessField("then").addEventListener("change", tellGuessedThen);
  guessField("wire").addEventListener("input", drawGuessed);
  // (A key typed in a field is the field's; but for this one, behind which the arrows walk.)
  byId("guess").addEventListener("keydown", event => {
    if (event.key !== "Escape") return;
    event.stopPropagation();
    byId("picture").focus();
    leave();
  });
}
