// The tree of questions in words of the source: a row for the program, for each call and for each use of a variable that waits. What
// happens inside a row is its text with holes: `sum 10 = 10 + ?`.

// (Of more rows than `printed` a sheet has those of the present one alone.)
const WAITING = { rows: 60, near: 24, text: 30, deep: 12, printed: 20 };
const ROW_KINDS = new Set(["root", "earlier", "call", "use", "part"]);

// The text of a part, cut, and a function without its body.
function shortText(id, most = WAITING.text) {
  const text = textOf(id).replace(/^(\(*)((?:fun|fix) [^:\s]*).*$/, (_, open, begins) => `${open}${begins} …${")".repeat(open.length)}`);
  return text.length > most ? text.slice(0, most - 1) + "…" : text;
}

// An application's function and its arguments {app, box}, through the applications to the left.
function chainOf(part) {
  const args = [];
  let at = part;
  for (; at.node.name === "App"; at = at.parts[0]) args.unshift({ app: at.node.id, box: at.parts[1].box });
  return { head: at, args };
}

const binderName = part => programText.names.get(part.binder);

// What a call is called: its function, and for each argument its value where it is known, and else its text.
function callText({ node, called }) {
  const { head, args } = chainOf(programText.term.parts.get(node));
  const inParens = text => /^[\w…]+$|^\(/.test(text) ? text : `(${text})`;
  const texts = args.map(({ app, box }) => view.questions.valueOf(called.get(app)) ?? inParens(shortText(box)));
  const name = head.node.name === "Der" ? binderName(head) : head.node.name === "FixBox" ? programText.names.get(head.node.id)
    : inParens(shortText(head.node.id));
  return [name, ...texts].join(" ");
}

function rowText(frame) {
  switch (frame.kind) {
    case "root": return "the program";
    case "earlier": return `what was asked before move ${view.run.first}`;
    case "call": return callText(frame);
    case "use": return binderName(programText.term.parts.get(frame.node));
    default: return shortText(frame.node);
  }
}

// Which call a row belongs to, in words.
function rowNote(frame) {
  const { questions } = view;
  if (frame.kind === "call" && frame.own) return callName(frame.own).replace(/ of .*/, "");
  if (frame.kind !== "use") return "";
  const { binder } = programText.term.parts.get(frame.node);
  if (view.net.nodes[binder].name === "FixBox") {
    let boxes = frame.boxes;
    for (let count = questions.doorsOf(frame.node); count > 0 && boxes; count--) boxes = boxes.rest;
    return boxes && questions.numbers.has(boxes) ? "in " + callName(boxes) : "";
  }
  const call = questions.calls.get(questions.copyOfBinder(frame.node, frame.boxes));
  const name = call && call.own ? callName(call.own) : "";
  return name && "of " + name;
}

// A call of a recursive term: `call 3 of sum`. Its mark is the top of a box stack. Nothing where the call was made before a part of a run.
function callName(boxes) {
  const number = view.questions.numbers.get(boxes);
  return number === undefined ? "" : `call ${number} of ${programText.names.get(boxes.box)}`;
}

// The rows of the state that is shown: {frame, depth, tickets, holes}, in which `holes` gives what is in each frame.
const SIDES = ["value", "operand", "condition", "then", "else", "left", "right"];
function waitingRows() {
  const holes = view.questions.tree();
  const rows = [];
  const todo = [...holes.keys()].filter(frame => !frame.hole).map(frame => ({ frame, depth: 0 }));
  while (todo.length > 0) {
    const { frame, depth } = todo.pop();
    const row = { frame, depth, tickets: [], holes };
    const below = [];
    const look = at => {
      for (const side of SIDES) for (const it of holes.get(at)[side] || []) {
        if (it.ticket !== undefined) row.tickets.push(it.ticket);
        else if (ROW_KINDS.has(it.frame.kind)) below.push({ frame: it.frame, depth: depth + 1 });
        else look(it.frame);
      }
    };
    look(frame);
    rows.push(row);
    todo.push(...below.reverse());
  }
  return rows;
}

// What is asked in a row, as texts and {ticket, token}: a hole is `?` where a row below has it, and an operand that is kept is its value.
function rowPieces({ frame, holes }) {
  const fill = (at, side, isOperand) => {
    const [first, ...others] = (holes.get(at) || {})[side] || [];
    if (first === undefined) return [at.kept[side] ? at.kept[side].value : "?"];
    if (others.length > 0) return [`${others.length + 1} questions`];
    if (first.ticket !== undefined) return [first];
    if (ROW_KINDS.has(first.frame.kind)) return ["?"];
    const text = inside(first.frame);
    const isLong = first.frame.kind === "fork" || (first.frame.kind === "test" && holes.get(first.frame).condition);
    return isOperand && isLong ? ["(", ...text, ")"] : text;
  };
  const inside = at => {
    const part = programText.term.parts.get(at.node);
    switch (at.kind) {
      case "fork": {
        const [sign] = OPERATORS[part.node.name];
        return [...fill(at, "left", part.node.name === "Times"), ` ${sign} `, ...fill(at, "right", true)];
      }
      case "step": return [part.node.name.toLowerCase() + " ", ...fill(at, "operand", true)];
      case "test": {
        const chosen = ["then", "else"].find(side => holes.get(at)[side]);
        if (chosen) return fill(at, chosen, false);
        const [yes, no] = [1, 2].map(which => shortText(part.parts[which].node.id));
        return ["ifz ", ...fill(at, "condition", false), ` then ${yes} else ${no}`];
      }
      default: return fill(at, "value", false);
    }
  };
  return inside(frame);
}

// The places of the row in which a ticket is and of those above it, the uppermost first.
function presentRows(rows, ticket) {
  const path = [];
  let least = Infinity;
  for (let at = rows.findIndex(({ tickets }) => tickets.includes(ticket)); at >= 0; at--) {
    if (rows[at].depth >= least) continue;
    least = rows[at].depth;
    path.push(at);
  }
  return path.reverse();
}

// The row in which a ticket is, in one line.
function presentText(rows, ticket) {
  const row = rows.find(({ tickets }) => tickets.includes(ticket));
  if (!row) return "";
  const note = rowNote(row.frame);
  return `${rowText(row.frame)} = ${piecesText(rowPieces(row))}${note ? ` (${note})` : ""}`;
}

// On the wall: the open forks, the last one first, and the other live tokens with their rows. Rows that have no room are counted.
const WALL_ROWS = 8;
function tellWallRows(rows, shown) {
  if (!view.wall) return;
  const others = [...view.run.state.live.keys()].filter(ticket => !shown || ticket !== shown.ticket).sort((one, two) => one - two);
  const lists = [
    ["told-forks", "open forks", [...view.run.state.open.values()].reverse(), forkText],
    ["told-others", "other tokens", others, ticket => `ticket ${ticket}: ${presentText(rows, ticket)}`],
  ];
  const box = byId("told");
  let most = WALL_ROWS;
  do {
    for (const [id, what, all, textOfOne] of lists) {
      const texts = all.slice(0, most).map(textOfOne);
      if (all.length > texts.length && most > 0) texts.push(`and ${all.length - most} more`);
      byId(id).hidden = all.length === 0;
      byId(id).replaceChildren(`${what} (${all.length}) `, ...texts.map(text => element("span", {}, text)));
    }
  } while (most-- > 0 && box.scrollHeight > box.clientHeight);
}

const sideText = value => value === null ? "·" : value;
const forkSides = ({ node, left, right }) => sideText(left) + " " + signOf(view.net.nodes[node]) + " " + sideText(right);
const forkText = fork => `${fork.node} at ${plainStack(fork.boxes)}: ${forkSides(fork)}`;

function tellWaiting() {
  const rows = waitingRows();
  const shown = shownToken();
  const path = presentRows(rows, shown ? shown.ticket : -1);
  const present = path.length > 0 ? path[path.length - 1] : -1;
  byId("told-question").textContent = shown ? presentText(rows, shown.ticket) : "";
  tellWallRows(rows, shown);
  const seen = rowsSeen(rows.length, path);
  const list = byId("waiting");
  const lines = [];
  let left = 0;
  rows.forEach((row, at) => {
    if (!seen.has(at)) { left++; return; }
    if (left > 0) lines.push(leftOut(left));
    left = 0;
    lines.push(waitingLine(row, at === present, path.includes(at)));
  });
  if (left > 0) lines.push(leftOut(left));
  putRows(list, lines, lines.find(line => line.matches(".present")) || null);
  list.classList.toggle("many", rows.length > WAITING.printed);
  byId("waiting-count").textContent = rows.length;
  byId("none-waiting").hidden = rows.length > 0;
}

const leftOut = count => element("div", { class: "empty" }, `and ${count} more`);

// Of many rows those near the present one, on its path and elsewhere, and the first ones.
function rowsSeen(count, path) {
  const all = [...Array(count).keys()];
  if (count <= WAITING.rows) return new Set(all);
  const present = path.length > 0 ? path[path.length - 1] : 0;
  const near = all.filter(at => Math.abs(at - present) <= WAITING.near / 2);
  return new Set([0, 1, ...path.slice(0, 3), ...path.slice(-WAITING.near), ...near]);
}

function waitingLine(row, isPresent, isAbove) {
  const { frame } = row;
  const name = isPresent ? "present" : isAbove ? "above" : "";
  const line = element("div", { class: "waits " + name, title: waitingTitle(row), role: "treeitem", "aria-level": row.depth + 1,
    "aria-current": isPresent, "data-row": "" });
  if (frame.hole) line.dataset.node = frame.node;
  line.style.paddingLeft = Math.min(row.depth, WAITING.deep) * 9 + "px";
  const pieces = rowPieces(row).map(piece => typeof piece === "string" ? piece : holeMark(piece));
  line.append(element("span", { class: "text" }, rowText(frame), " = ", ...pieces));
  const note = rowNote(frame);
  if (note) line.append(noteMark(frame, note));
  line.addEventListener("pointerenter", () => markWaiting(line));
  line.addEventListener("pointerleave", () => markSpans("meant", []));
  line.addEventListener("click", () => jump(frame.at + 1));
  return line;
}

// Where colours are those of calls, the row of a call has its own.
function noteMark(frame, note) {
  const mark = element("span", { class: "note" }, note);
  if (view.colourBy === "call" && frame.own) mark.style.color = colour(view.questions.callOf({ frame }));
  return mark;
}

// Underlines in the program what a row is about.
const markWaiting = ({ dataset }) => markSpans("meant", dataset.node === undefined ? [] : [Number(dataset.node)]);

const piecesText = pieces => pieces.map(piece => typeof piece === "string" ? piece : piece.token.value).join("");
const waitingTitle = row => `${rowText(row.frame)} = ${piecesText(rowPieces(row))}`;

// A hole in which a token is: its question, or the answer that it brings.
function holeMark({ ticket, token }) {
  const mark = element("b", { class: "hole", title: "ticket " + ticket }, token.value);
  mark.style.color = tokenColour(ticket);
  return mark;
}
