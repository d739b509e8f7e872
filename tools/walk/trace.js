// The trace of a run, as `goi trace` prints it. A trace keeps its text; a line is read when it is looked at.

function readTrace(text) {
  const all = text.split("\n");
  const trace = { value: null, moves: null, live: [], open: [], lines: [], first: 0, firstLine: 0 };
  const start = all.indexOf("trace 1");
  if (start < 0) throw new Error("The trace has no line `trace 1`.");
  for (const line of all.slice(0, start)) {
    if (line.startsWith("value ")) trace.value = line.slice(6);
    if (line.startsWith("moves ")) trace.moves = Number(line.slice(6));
  }
  for (let at = start + 1; at < all.length; at++) {
    const line = all[at];
    if (line === "end") return trace;
    if (line.startsWith("move ")) {
      if (trace.lines.length === 0) { trace.first = Number(line.split(" ", 2)[1]); trace.firstLine = at + 1; }
      trace.lines.push(line);
    } else if (trace.lines.length === 0 && line.startsWith("live ")) trace.live.push({ words: line.split(" "), line: at + 1 });
    else if (trace.lines.length === 0 && line.startsWith("open ")) trace.open.push({ words: line.split(" "), line: at + 1 });
    else throw new Error("Line " + (at + 1) + " of the trace can't stand there: " + line.slice(0, 120));
  }
  throw new Error("The trace has no line `end`.");
}

// The two lines before a trace.
const traceHead = ({ value, moves }) => `${value === null ? "no value" : "value " + value}\nmoves ${moves}\n`;

// A token is five words: its value or `?`, its direction, its wire, its work stack and its box stack. One that a move brought has the
// move's number as its line.
function tokenOf(words, at, line) {
  return { value: words[at], direction: words[at + 1], wire: Number(words[at + 2]), work: words[at + 3], boxes: words[at + 4], line };
}

// move K worker W ticket T node N NAME IN OUT TOKEN => ..
function readMove(line) {
  const words = line.split(" ");
  const move = {
    number: Number(words[1]), worker: Number(words[3]), ticket: Number(words[5]), node: Number(words[7]), name: words[8],
    in: words[9], out: words[10], before: tokenOf(words, 11), kind: "solo", after: null,
  };
  if (words[17] === "kept") move.kind = "kept";
  else if (words[17] === "answer") { move.kind = "answer"; move.value = words[18]; }
  else {
    move.after = tokenOf(words, 17, move.number);
    if (words[22] === "fork") {
      move.kind = "fork";
      move.ticket2 = Number(words[23]);
      move.after2 = tokenOf(words, 24, move.number);
    }
    if (words[22] === "joined") { move.kind = "joined"; move.left = words[23]; move.right = words[24]; }
  }
  return move;
}

const TOKEN = "\\S+ (?:up|down) \\d+ \\S+ \\S+";
const MOVE_LINE = new RegExp("^move \\d+ worker \\d+ ticket \\d+ node \\d+ [A-Za-z]+ [a-z]+ (?:[a-z]+|-) " + TOKEN + " => " +
  "(?:kept|answer \\S+|" + TOKEN + "(?: fork \\d+ " + TOKEN + "| joined \\S+ \\S+)?)$");

// Whether the wire of a token is the wire of this port of the node: above the node where it goes up from it or comes down to it.
function atPort(node, port, token, facing) {
  const above = (token.direction === "down") === facing;
  const place = PORTS[node.name][above ? 0 : 1].indexOf(port);
  return place >= 0 && (above ? node.up : node.down)[place] === token.wire;
}

// What is wrong with a move on this net with these live tokens, or null.
function faultOfMove(line, move, net, live) {
  if (!MOVE_LINE.test(line)) return "is no move";
  const node = net.nodes[move.node];
  const misfit = "doesn't fit the net: ";
  if (!node || node.name !== move.name) return misfit + "node " + move.node + " is " + (node ? node.name : "missing") + " there";
  const joins = move.kind !== "solo" && move.kind !== "answer";
  if (joins !== Object.hasOwn(OPERATORS, move.name) || (move.kind === "answer") !== (move.name === "Root")) return "is no move";
  const fits = atPort(node, move.in, move.before, true) && (!move.after || atPort(node, move.out, move.after, false)) &&
    (!move.after2 || atPort(node, "right", move.after2, false));
  if (!fits) return misfit + "it names another wire at node " + move.node;
  const token = live.get(move.ticket);
  if (!token) return "doesn't fit the lines before it: ticket " + move.ticket + " isn't live";
  const same = token.value === move.before.value && token.direction === move.before.direction && token.wire === move.before.wire;
  return same ? null : "doesn't fit the lines before it: ticket " + move.ticket + " is elsewhere";
}

// A stack as its parts, top first.
function stackParts(stack) {
  if (stack === "-") return [];
  const parts = [];
  let depth = 0;
  let from = 0;
  for (let at = 0; at < stack.length; at++) {
    const sign = stack[at];
    if (sign === "(" || sign === "<") depth++;
    else if (sign === ")" || sign === ">") depth--;
    else if (sign === "." && depth === 0) { parts.push(stack.slice(from, at)); from = at + 1; }
  }
  parts.push(stack.slice(from));
  return parts;
}

// A cut stack doesn't tell its place: `~` stands for a deep part, `+N` for the parts below.
const isCut = token => /[~+]/.test(token.work + token.boxes);
