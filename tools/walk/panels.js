// What the last move was, in words; its token's stacks; the live tokens, the open forks and the answer.

const ROWS_SHOWN = 60;
const CELLS_SHOWN = 6;

// A ticket's number; a press goes to its next move.
function ticketButton(ticket, inColour, text) {
  const button = element("button", { class: "ticket", title: "to the next move of ticket " + ticket, "data-ticket": ticket }, text);
  button.style.color = inColour;
  button.setAttribute("aria-label", "ticket " + ticket + ", to its next move");
  button.addEventListener("click", () => nextOf(view.run.ticketOf, ticket, 1));
  return button;
}

// The move at this place of the trace; null at the beginning.
function tellMove(move) {
  tellRound(move);
  tellMoveInPanel(move);
  tellMoveInLine(move);
}

// The same in the line that is shown where the panels are below or put away.
function tellMoveInLine(move) {
  const rule = move ? ruleOf(move) : null;
  const say = byId("say").querySelector("p");
  byId("told-title").textContent = move ? `${rule.title}. ` : "";
  byId("told-say").textContent = say ? say.textContent : "";
  const shown = move ? move.after || move.before : (shownToken() || { token: null }).token;
  byId("told-stacks").textContent = shown ? `work ${plainStack(shown.work)}   boxes ${plainStack(shown.boxes)}` : "";
}

const plainStack = stack => stack === "-" ? "empty" : stackParts(stack).map(brief).join(".");

function tellMoveInPanel(move) {
  if (!move) return tellStart();
  const rule = ruleOf(move);
  const asks = move.before.value === "?";
  const worker = view.run.workers > 1 ? ` worker ${move.worker},` : "";
  const what = asks ? " a question" : ` an answer, ${move.before.value},`;
  const button = ticketButton(move.ticket, moveColour(move), "ticket " + move.ticket);
  const who = element("div", {}, button, `${worker}${what} at node ${move.node}`);
  const parts = [element("div", { class: "title" }, rule.title), who, element("p", {}, rule.say)];
  if (move.kind === "answer") parts.push(element("p", {}, element("b", {}, "value " + move.value)));
  byId("say").replaceChildren(...parts);
  tellRow(rule, move);
  tellStacks(move.before, move.after || move.before, view.questions.given[move.number - view.run.first]);
}

// The row of the table that was applied, and what its letters stand for.
function tellRow(rule, move) {
  const arrow = element("span", { role: "img", "aria-label": "becomes" }, "→");
  byId("row").replaceChildren(...rule.from ? [element("div", { class: "rule" }, rulePlace(rule.from, move.before), arrow,
    rulePlace(rule.to, move.after), ruleInstance(rule, move))] : []);
}

function tellStart() {
  const shown = shownToken();
  byId("row").replaceChildren();
  const { first } = view.run;
  const title = element("div", { class: "title" }, first === 0 ? "The run begins" : "The part from move " + first + " on");
  if (!shown) {
    byId("say").replaceChildren(title, element("p", {}, "No token is live here."));
    tellStacks({ work: "-", boxes: "-" }, { work: "-", boxes: "-" }, { work: null, boxes: null });
    return;
  }
  const { ticket, token } = shown;
  const text = first === 0 && token.value === "?"
    ? `One token, under ticket ${ticket}, asks for the program's value. The question goes up wire ${token.wire}. Both its stacks are empty.`
    : `So many tokens are live before move ${first}: ${view.run.state.live.size}. The least ticket is ${ticket}.`;
  byId("say").replaceChildren(title, element("p", {}, text));
  tellStacks(token, token, view.questions.of(ticket, token));
}

// One side of a row of the table.
function rulePlace([port, direction, work, boxes], token) {
  const place = `${port} ${direction === "up" ? "↑" : "↓"}, wire ${token.wire}`;
  return element("div", {}, place, element("span", { class: "code" }, work + (boxes === "t" ? "" : " at " + boxes)));
}

// What the row's letters stand for in this move.
function ruleInstance({ from, to }, move) {
  const letters = new Map([...lettersOf(from, move.before), ...lettersOf(to, move.after)]);
  const texts = ["s", "u", "m", "t"].filter(letter => letters.has(letter)).map(letter => {
    const text = letters.get(letter);
    return element("span", { title: text }, element("i", {}, letter + " = "), text.length > 34 ? text.slice(0, 33) + "…" : text);
  });
  return element("div", { class: "instance" }, ...texts);
}

// The letters of a row's place with what they stand for. The rest of the box stack is left out where the row leaves it alone.
function lettersOf([, , work, boxes], token) {
  const found = [];
  const match = (pattern, stack) => {
    const parts = stackParts(stack);
    const wanted = pattern.split(".");
    wanted.forEach((part, at) => {
      const own = parts[at] || "~";
      const pair = /^(?:<(.*)>|y\((.*)\))$/.exec(own);
      if (at === wanted.length - 1) found.push([part, parts.slice(at).join(".") || "empty"]);
      else if (part.length === 1 && /[su]/.test(part)) found.push([part, own]);
      else if (/^[lr] s$/.test(part)) found.push(["s", own.slice(1)]);
      else if (pair && part.length > 1) halves(pair[1] ?? pair[2]).forEach((half, side) => found.push([part.match(/[su]/g)[side], half]));
    });
  };
  match(work, token.work);
  if (boxes !== "t") match(boxes, token.boxes);
  return found;
}

// `whole` has the marks of both stacks.
function tellStacks(before, after, whole) {
  byId("work").replaceChildren(stackCells(before.work, after.work, whole.work, false));
  byId("boxes").replaceChildren(stackCells(before.boxes, after.boxes, whole.boxes, true));
  byId("work-count").textContent = wholeStack(after.work).count;
  byId("boxes-count").textContent = wholeStack(after.boxes).count;
  tellOther();
  stacksInSight();
}

// Where the left column is higher than the window, the stacks are in sight, and the first line of what is said of the move stays. (Where
// somebody has scrolled past the stacks the column is left alone.)
function stacksInSight() {
  const left = byId("left");
  if (left.scrollHeight <= left.clientHeight) return;
  const place = it => it.getBoundingClientRect().top - left.getBoundingClientRect().top + left.scrollTop;
  const stacks = byId("stacks");
  const first = byId("say").firstElementChild;
  if (!first || stacks.offsetHeight === 0) return;
  const wanted = Math.max(0, Math.min(place(stacks) + stacks.offsetHeight + 8 - left.clientHeight, place(first) - 4));
  const isPast = left.scrollTop > wanted && place(first) < left.scrollTop && place(stacks) > left.scrollTop;
  if (left.scrollTop < wanted || isPast) left.scrollTop = wanted;
}

// The parts of a stack that the trace has, and how many there are with those that it leaves out.
function wholeStack(stack) {
  const parts = stackParts(stack);
  if (parts.length === 0 || !parts[parts.length - 1].startsWith("+")) return { parts, count: parts.length };
  const left = Number(parts.pop().slice(1));
  return { parts, count: parts.length + left };
}

// How many parts two stacks have in common, from below. What the trace leaves out is far below the top, and stays.
function commonParts(old, now) {
  let same = 0;
  while (same < old.count && same < now.count) {
    const [one, two] = [old.parts[old.count - 1 - same], now.parts[now.count - 1 - same]];
    if (one !== undefined && two !== undefined && one !== two) break;
    same++;
  }
  return same;
}

// A stack after a move: what came off, what was put on top, and the rest. A signature is pressed to be told in words.
function stackCells(before, after, whole, isBoxes) {
  const [old, now] = [wholeStack(before), wholeStack(after)];
  const same = commonParts(old, now);
  const fresh = now.count - same;
  const rest = now.parts.slice(fresh, fresh + CELLS_SHOWN);
  const marks = marksIn(whole, fresh + rest.length);
  const gone = part => element("div", { class: "cell gone", title: "came off: " + part }, brief(part));
  const cell = (part, at) => stackCell(at < fresh ? "cell new" : "cell", (at < fresh ? "new: " : "") + part, part, marks[at], isBoxes);
  const cells = element("div", { class: "cells" }, ...old.parts.slice(0, old.count - same).map(gone),
    ...[...now.parts.slice(0, fresh), ...rest].map(cell));
  if (same > rest.length) cells.append(element("div", { class: "empty" }, `and ${same - rest.length} below`));
  if (now.count === 0) cells.append(element("div", { class: "empty" }, "empty"));
  return cells;
}

function stackCell(kind, title, part, at, isBoxes) {
  const words = at ? shortWords(at.mark, isBoxes ? at : null) : "";
  const told = words === "" ? [] : [element("span", { class: "words" }, words)];
  if (words === "" || at.mark.sign === "R" || at.mark.sign === "L") return element("div", { class: kind, title }, brief(part), ...told);
  const button = element("button", { class: kind, title, "aria-label": `${brief(part)}: ${words}` }, brief(part), ...told);
  button.addEventListener("click", () => tellChain(at.mark, isBoxes ? at : null));
  return button;
}

function tellTables() {
  const { state } = view.run;
  const move = toldMove();
  const mover = move ? move.ticket : -1;
  const all = [...state.live].sort((one, two) => one[0] - two[0]);
  const { onlyWire } = view;
  const wanted = onlyWire === null ? all : all.filter(([, token]) => token.wire === onlyWire);
  byId("live-count").textContent = onlyWire === null ? all.length : wanted.length + " of " + all.length + ", on wire " + onlyWire;
  byId("live-all").hidden = onlyWire === null;
  const liveRows = firstRows(wanted, mover).map(([ticket, token]) => liveRow(ticket, token, ticket === mover));
  keepRows(byId("live"), [...liveRows, ...cutRow(wanted.length, 5)]);
  byId("open-count").textContent = state.open.size;
  keepRows(byId("open"), [...[...state.open.values()].slice(-ROWS_SHOWN).reverse().map(openRow), ...cutRow(state.open.size, 4)]);
  byId("none-open").hidden = state.open.size > 0;
  byId("answer").textContent = answerText();
}

// The first rows, and that of the token that moved.
function firstRows(rows, ticket) {
  const shown = rows.slice(0, ROWS_SHOWN);
  const mover = rows.find(row => row[0] === ticket);
  return mover && !shown.includes(mover) ? [mover, ...shown] : shown;
}

// Puts rows {key, looks, make} into a table. Rows that look the same stay, since laying out a table takes the most of a jump.
function keepRows(table, rows) {
  const keys = new Set(rows.map(row => row.key));
  const known = new Map();
  for (const child of [...table.children]) if (keys.has(child.key)) known.set(child.key, child); else child.remove();
  let place = table.firstElementChild;
  for (const { key, looks, make } of rows) {
    let row = known.get(key);
    if (!row || row.looks !== looks) {
      const made = Object.assign(make(), { key, looks });
      if (row) row.replaceWith(made);
      if (row && row === place) place = made;
      row = made;
    }
    if (row === place) place = place.nextElementSibling; else table.insertBefore(row, place);
  }
}

// The row that says how many are left out.
function cutRow(count, columns) {
  if (count <= ROWS_SHOWN) return [];
  const text = `and ${count - ROWS_SHOWN} more`;
  return [{ key: "more", looks: text, make: () => element("tr", {}, element("td", { colspan: columns, class: "empty" }, text)) }];
}

function liveRow(ticket, token, moved) {
  const looks = [token.value, token.direction, token.wire, token.work, token.boxes, tokenColour(ticket), moved].join(" ");
  return { key: String(ticket), looks, make: () => makeLiveRow(ticket, token, moved) };
}

function makeLiveRow(ticket, token, moved) {
  const { work, boxes } = view.questions.of(ticket, token);
  const button = ticketButton(ticket, tokenColour(ticket), String(ticket));
  const does = token.value === "?" ? "asks" : "= " + token.value;
  const where = element("span", { role: "img", "aria-label": wireWords(view.net.wires[token.wire], view.net).split(":")[0] },
    token.wire + (token.direction === "up" ? " ↑" : " ↓"));
  return element("tr", moved ? { class: "now" } : {}, element("td", {}, button), element("td", {}, does), element("td", {}, where),
    stackText(token.work, work, false), stackText(token.boxes, boxes, true));
}

// A stack in a table; a press tells its uppermost signature in words.
function stackText(text, stack, isBoxes) {
  const top = marksIn(stack, 9).find(({ mark }) => mark.s || mark.sign === "*");
  const words = stackWords(stack, isBoxes);
  if (!top) return element("td", { class: "code", title: text, "aria-label": words }, brief(text));
  const button = element("button", { class: "told", "aria-label": `${brief(text)}, in words: ${words}` }, brief(text));
  button.addEventListener("click", () => tellChain(top.mark, isBoxes ? top : null));
  return element("td", { class: "code", title: text }, button);
}

function openRow({ node, boxes, left, right, line }) {
  const name = view.net.nodes[node].name + " " + node;
  const sides = [left, right].map(side => side === null ? "waits" : side);
  const make = () => element("tr", {}, element("td", {}, name), stackText(boxes, wholeBoxes(line), true),
    ...sides.map(side => element("td", {}, side)));
  return { key: name + " " + boxes, looks: sides.join(" "), make };
}

// The whole box stack of a fork: that of the line that opened it, where that is here.
function wholeBoxes(line) {
  const given = line === undefined ? undefined : view.questions.given[line - view.run.first];
  return given ? given.boxes : null;
}

function answerText() {
  const { state, trace, length } = view.run;
  if (state.answer !== null) return state.answer;
  const over = state.at === length && trace.value === null && trace.moves !== null && movesMade() >= trace.moves;
  return over ? "none within " + trace.moves + " moves" : "not yet";
}

// The next two moves, and their exchange where it can be had.
function tellSwap() {
  const why = whyNoSwap(view.run);
  const { run } = view;
  for (const id of ["swap-save", "swap-run"]) byId(id).disabled = why !== null;
  byId("swap-run").hidden = view.runSchedule === null;
  byId("swap-how").hidden = why !== null;
  if (why !== null) { byId("swap-say").textContent = why; return; }
  const [one, two] = [run.move(run.state.at), run.move(run.state.at + 1)];
  const moves = `Moves ${one.number} and ${two.number} are of tickets ${one.ticket} and ${two.ticket}.`;
  byId("swap-say").textContent = moves + " They can be exchanged.";
  byId("swap-command").textContent = `./goi replay ${shellWord(view.file)} ${swapName()} --trace`;
}

const fileStem = () => view.name.replace(/\.[^.]*$/, "").replace(/[^\w-]+/g, "-") || "walk";
const swapName = () => fileStem() + "-swap-" + view.run.state.at + ".schedule";
