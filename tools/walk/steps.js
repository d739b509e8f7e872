// The reduction of the program by name, as `goi steps` prints it, and beside each step the visit of the walk that stands for it. The steps
// follow the walk, and a press on a step goes to its move.
//
// A step is a visit at which a question is asked anew, or a number is made of others. At the node of a `fun`, a `fix` or a pair a question
// for the result of the whole goes into the body or a part: the step puts the argument, the term itself or the part there. At an operator
// or a test the answers have come. A question that comes back for an argument names it by a signature on its work stack, and makes no
// step. Both operands of an operator walk at once and in any order, while the reduction goes through the left one first: so the visits are
// told in the order of the terms. Nothing proves this. It is held against the machine's own list of rules, and where both differ, nothing
// is shown.

const STEP_OF_NODE = { Succ: "succ", Pred: "pred", Plus: "plus", Minus: "minus", Times: "times" };
const GREATEST_TEXT = "18446744073709551615";
// The program whose steps are listed, or null; each line of the machine's: {number, rule, from, to, term}; what it says first, and last.
const steps = { program: null, lines: [], said: "", last: "" };

// Whether a question is for the result of the whole: nothing on its work stack names an argument.
const isOfResult = stack => /^(-|[LR](\.[LR])*)$/.test(stack);

// The rule of the step that a move stands for, or null.
function stepOf(move) {
  const { name, before, after, kind } = move;
  if (kind === "joined") return STEP_OF_NODE[name];
  if (kind !== "solo") return null;
  if (before.value !== "?") {
    if (name === "Ifz" && move.in === "condition") return "ifz";
    const isSpelled = name === "Succ" && before.value === GREATEST_TEXT;
    return (name === "Succ" || name === "Pred") && move.in === "operand" && !isSpelled ? STEP_OF_NODE[name] : null;
  }
  if (after.direction !== "up" || !isOfResult(after.work)) return null;
  if (name === "Lam" && move.out === "body") return "fun";
  if (name === "FixBox" && move.out === "body") return "fix";
  if (name === "Pair") return before.work.startsWith("L") ? "fst" : "snd";
  return null;
}

// The moves of a whole run in the order of the terms, as {rule, at}: at a fork the left operand's first, and then the right one's.
function visitsOf(run) {
  const moves = new Map();
  for (let at = 0; at < run.length; at++) {
    const { ticket } = run.move(at);
    if (!moves.has(ticket)) moves.set(ticket, []);
    moves.get(ticket).push(at);
  }
  const next = new Map();
  const found = [];
  // Forks whose right operand hasn't begun (`right` is its ticket) or is under way (null), the innermost last.
  const forks = [];
  let ticket = moves.keys().next().value;
  while (ticket !== undefined) {
    const place = next.get(ticket) ?? 0;
    const at = moves.get(ticket)?.[place];
    if (at === undefined) break;
    next.set(ticket, place + 1);
    const move = run.move(at);
    if (move.kind === "fork") forks.push({ right: move.ticket2, left: ticket, join: null });
    const ends = move.kind === "kept" || move.kind === "joined";
    const fork = forks.at(-1);
    if (move.kind === "joined") fork.join = { at, ticket };
    else if (!ends) { const rule = stepOf(move); if (rule) found.push({ rule, at }); }
    if (!ends) continue;
    if (fork.right !== null) { ticket = fork.right; fork.right = null; continue; }
    forks.pop();
    // (The operand that came first is over there; the walk goes on behind the second one.)
    if (!fork.join) break;
    found.push({ rule: stepOf(run.move(fork.join.at)), at: fork.join.at });
    ticket = fork.join.ticket;
  }
  return found;
}

// The visits of each run that was asked about.
const visitsKnown = new WeakMap();
function visitsIn(run) {
  if (!visitsKnown.has(run)) visitsKnown.set(run, visitsOf(run));
  return visitsKnown.get(run);
}

// Lists what `goi steps` prints of a program. The places in a line are bytes.
function putSteps(program, text) {
  const all = text.trimEnd().split("\n");
  const lines = all.filter(it => it.startsWith("step ")).map(line => {
    const [, number, rule, from, to] = line.split(" ", 5);
    return { number: Number(number), rule, from: Number(from), to: Number(to), term: line.split(" ").slice(5).join(" ") };
  });
  Object.assign(steps, { program, lines, said: all.slice(0, 2).join(", "), last: all.at(-1) });
  drawSteps();
}

// The visits of the run that is shown, by the numbers of the steps: {visits}, where it is the whole run of the program that is listed and
// agrees with the rules; else {why}.
function stepVisits() {
  const { run, program } = view;
  if (!run || program !== steps.program || !run.whole) return { why: "Run the program, and each step is shown beside its visit." };
  const visits = visitsIn(run);
  const differs = steps.lines.some(({ number, rule }) => visits[number] !== undefined && visits[number].rule !== rule);
  return differs ? { why: "The visits of this walk can't be told apart." } : { visits };
}

function drawSteps() {
  const { visits } = stepVisits();
  const rows = steps.lines.map(line => drawStep(line, visits && visits[line.number]));
  if (steps.program !== null) {
    const [, number, ...words] = steps.last.split(" ");
    const end = steps.last.startsWith("end ") ? `after ${number}: ${words.join(" ")}` : `stopped after ${number}, by ${words[0]}`;
    rows.push(element("div", { class: "empty" }, end));
  }
  putRows(byId("steps-rows"), rows, rows.length > 1 ? rows[0] : null);
  byId("steps-box").hidden = steps.program === null || !byId("steps-box").contains(byId("steps-rows"));
  if (view.run) tellSteps();
}

// A term, with the part that is rewritten next.
function drawStep({ number, rule, from, to, term }, visit) {
  const [first, last] = [from, to].map(at => new TextDecoder().decode(new TextEncoder().encode(term).subarray(0, at)).length);
  const whole = element("span", {}, term.slice(0, first), element("mark", {}, term.slice(first, last)), term.slice(last));
  const row = element("div", { class: "step", role: "option", "data-row": "" }, element("b", {}, `${number} ${rule}`), whole);
  if (!visit) return row;
  row.dataset.at = visit.at;
  row.append(element("div", { class: "visit" }, `move ${view.run.first + visit.at}`));
  row.addEventListener("click", () => jump(visit.at + 1));
  return row;
}

// Marks the step whose visit was made last.
function tellSteps() {
  const list = byId("steps-rows");
  let present = null;
  for (const row of list.querySelectorAll(".step")) {
    row.classList.remove("present");
    row.setAttribute("aria-selected", false);
    const at = Number(row.dataset.at ?? Infinity);
    if (at < view.run.state.at && !(present && Number(present.dataset.at) > at)) present = row;
  }
  if (!present) return;
  present.classList.add("present");
  present.setAttribute("aria-selected", true);
  activateRow(list, present);
  showInside(list, present);
}

// The places behind the calls of a run: a question has entered the body of a function, or of a `fix`.
const callsKnown = new WeakMap();
function callsIn(run) {
  if (!callsKnown.has(run)) {
    const places = [];
    for (let at = 0; at < run.length; at++) if (["fun", "fix"].includes(stepOf(run.move(at)))) places.push(at + 1);
    callsKnown.set(run, places);
  }
  return callsKnown.get(run);
}
