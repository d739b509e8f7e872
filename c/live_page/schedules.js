// The box of a schedule, and the same as rows to be dragged. The machine replays it. Its walk is put together from the run of the program,
// since in every order the same moves are made, and is held against what the machine said.

const MOST_ROWS = 400;
// {ticket, count}: the rows as they lie, neighbours of one ticket not yet joined; and the text that was put into the box last, by no hand.
const schedule = { rows: [], taken: "" };

// The rows of a schedule of either version, or nothing where the text isn't one.
function rowsIn(text) {
  const [first, ...lines] = text.split("\n");
  const end = lines.indexOf("end");
  const form = { "schedule 1": /^(\d+)$/, "schedule 2": /^(\d+) (\d+)$/ }[first];
  if (!form || end < 0) return [];
  const rows = lines.slice(0, end).map(line => form.exec(line));
  return rows.includes(null) ? [] : rows.map(([, ticket, count]) => ({ ticket: Number(ticket), count: Number(count ?? 1) }));
}

// The text of rows: a line for each longest row of moves of one ticket.
function textOfRows(rows) {
  const joined = [];
  for (const { ticket, count } of rows) {
    const last = joined.at(-1);
    if (last && last.ticket === ticket) last.count += count; else joined.push({ ticket, count });
  }
  return ["schedule 2", ...joined.map(({ ticket, count }) => `${ticket} ${count}`), "end", ""].join("\n");
}

const ticketsOf = rows => rows.flatMap(({ ticket, count }) => Array(count).fill(ticket));

function putSchedule(text) {
  schedule.taken = text;
  putText("schedule", text);
  schedule.rows = rowsIn(text);
  drawRows();
}

function drawRows(active = 0) {
  const rows = schedule.rows.slice(0, MOST_ROWS).map(drawRow);
  if (schedule.rows.length > MOST_ROWS) rows.push(line(`and ${schedule.rows.length - MOST_ROWS} more, in the text alone`, "empty"));
  walk.putRows(byId("schedule-rows"), rows, rows[active] ?? null);
}

function drawRow({ ticket, count }, at) {
  const row = line("", "turn");
  row.dataset.row = at;
  row.setAttribute("role", "option");
  const name = document.createElement("b");
  name.textContent = "t" + ticket;
  name.style.color = `var(--k${ticket % 8})`;
  const split = document.createElement("button");
  split.textContent = "split";
  split.tabIndex = -1;
  split.hidden = count < 2;
  split.addEventListener("click", () => splitRow(at));
  row.append(name, ` ${count} ${count === 1 ? "move" : "moves"}`, split);
  return row;
}

// Puts changed rows into the box as well. The rows stay as they lie.
function setRows(rows, active) {
  schedule.rows = rows;
  putText("schedule", textOfRows(rows));
  drawRows(active);
}

function splitRow(at) {
  const { ticket, count } = schedule.rows[at];
  if (count < 2) return;
  const half = Math.ceil(count / 2);
  setRows(schedule.rows.toSpliced(at, 1, { ticket, count: half }, { ticket, count: count - half }), at);
}

function moveRow(from, to) {
  const place = Math.max(0, Math.min(schedule.rows.length - 1, to));
  setRows(schedule.rows.toSpliced(from, 1).toSpliced(place, 0, schedule.rows[from]), place);
}

function pressRow(event) {
  const row = walk.activeRow(byId("schedule-rows"));
  const by = { ArrowUp: -1, ArrowDown: 1 }[event.key];
  if (!row || !(event.key === "s" || (event.altKey && by !== undefined))) return;
  event.preventDefault();
  event.stopImmediatePropagation();
  const at = Number(row.dataset.row);
  if (event.key === "s") splitRow(at); else moveRow(at, at + by);
}

// A row is dragged to where the pointer is let go.
function joinDragging() {
  const list = byId("schedule-rows");
  let dragged = null;
  const rowAt = event => {
    const rows = [...list.querySelectorAll(".turn")];
    const at = rows.findIndex(it => event.clientY < it.getBoundingClientRect().bottom);
    return at < 0 ? rows.length - 1 : at;
  };
  const show = at => list.querySelectorAll(".turn").forEach((row, place) => {
    row.classList.toggle("dragged", dragged !== null && place === dragged);
    row.classList.toggle("before", dragged !== null && place === at && at < dragged);
    row.classList.toggle("behind", dragged !== null && place === at && at > dragged);
  });
  list.addEventListener("pointerdown", event => {
    const row = event.target.closest(".turn");
    if (!row || event.target.closest("button")) return;
    dragged = Number(row.dataset.row);
    walk.activateRow(list, row);
    list.setPointerCapture(event.pointerId);
    show(dragged);
  });
  list.addEventListener("pointermove", event => { if (dragged !== null) show(rowAt(event)); });
  list.addEventListener("pointerup", event => {
    if (dragged === null) return;
    const [from, to] = [dragged, rowAt(event)];
    dragged = null;
    show(-1);
    if (to !== from) moveRow(from, to);
  });
  list.addEventListener("pointercancel", () => { dragged = null; show(-1); });
}

// The run of the program by name, with its net; where its moves can't be put into another order, `why` says so.
async function runByName(text, isMine) {
  const traced = await asked(text, "goi_trace", [text], [budgetGiven(), 0, 0, MOST_SHOWN], isMine);
  if (!traced) return null;
  const listed = await asked(text, "goi_net", [text], [], isMine);
  if (!listed) return null;
  const run = new walk.Run(walk.readTrace(traced.text), walk.readNet(listed.text), () => {});
  const why = run.trace.value === null ? "The run has no answer within the budget, so that its moves can't be put into another order."
    : run.whole ? null : `The run has more than ${MOST_SHOWN} moves, so that the page doesn't put them into another order.`;
  return { run, net: listed.text, why };
}

// An order of chance: at each move one of the live tickets.
function ticketsOfChance(run) {
  const made = new walk.Reordered(run);
  const tickets = [];
  while (made.live.size > 0) {
    const live = [...made.live.keys()];
    const ticket = live[Math.floor(Math.random() * live.length)];
    made.make(ticket);
    tickets.push(ticket);
  }
  return tickets;
}

const takeSchedule = which => begin(async isMine => {
  const text = programGiven();
  if (which === "run") {
    const found = await asked(text, "goi_run", [text], [budgetGiven(), SCHEDULE], isMine);
    if (!found) return;
    putSchedule(found.text.split("\n").slice(2).join("\n"));
    say(reportOf(found.text), "Drag a row, or change the text, and replay it.");
    return;
  }
  const found = await runByName(text, isMine);
  if (!found) return;
  const report = reportOf(walk.traceHead(found.run.trace));
  if (found.why !== null) { say(report, found.why); return; }
  putSchedule(walk.scheduleText(which === "rounds" ? walk.inRounds(found.run).tickets : ticketsOfChance(found.run)));
  say(report, which === "rounds" ? "In each round every live token makes one move." : "At each move one of the live tickets, by chance.");
});

// Has the machine replay the schedule, and shows the walk.
const replay = (asWalk = () => {}) => begin(async isMine => {
  const [text, order] = [programGiven(), textIn("schedule")];
  const found = await asked(text, "goi_replay", [text, order], [], isMine, "schedule");
  if (!found) return;
  say(reportOf(found.text), timeText(found.milliseconds));
  const made = await runByName(text, isMine);
  if (!made) return;
  if (made.why !== null) { addAside(made.why); return; }
  const trace = walk.replayed(made.run, ticketsOf(rowsIn(order)));
  if (trace === null || !trace.startsWith(found.text)) throw new Error("the walk of the schedule isn't what the machine said");
  const names = namesOf(text, false);
  walk.openWalk({ ...names, name: `${names.name}, replayed`, program: text, net: made.net, trace });
  byId("own-save").disabled = false;
  rememberProgram(text, false, budgetGiven(), order);
  asWalk();
});

// Replays a schedule on the program of the walk that is shown.
function replayShown(order) {
  if (programGiven() !== walk.view.program) putProgram(walk.view.program);
  putSchedule(order);
  showTab("schedule");
  replay();
}

const saveSchedule = () => walk.saveFile(walk.fileStem() + ".schedule", "text/plain", textIn("schedule"));

function joinSchedules() {
  byId("schedule-text").addEventListener("input", () => {
    unmark("schedule");
    schedule.rows = rowsIn(textIn("schedule"));
    drawRows();
  });
  byId("schedule-replay").addEventListener("click", () => replay());
  byId("schedule-save").addEventListener("click", saveSchedule);
  byId("schedule-take").addEventListener("change", event => {
    const which = event.target.value;
    event.target.value = "";
    if (which) takeSchedule(which);
  });
  byId("schedule-rows").addEventListener("keydown", pressRow);
  walk.joinRows(byId("schedule-rows"));
  joinDragging();
  walk.view.runSchedule = replayShown;
}
