// The log: a line for each move. Only the lines that are seen are in the page.

const LOG_LINE = 22;

function sizeLog() {
  byId("log-lines").style.height = view.run.length * LOG_LINE + "px";
  drawLog();
}

function drawLog() {
  const { run } = view;
  const box = byId("log");
  const from = Math.max(0, Math.floor(box.scrollTop / LOG_LINE) - 3);
  const to = Math.min(run.length, Math.ceil((box.scrollTop + box.clientHeight) / LOG_LINE) + 3);
  const lines = [];
  for (let at = from; at < to; at++) lines.push(logLine(at));
  byId("log-lines").replaceChildren(...lines);
}

function logLine(at) {
  const { run } = view;
  const move = run.move(at);
  const told = view.told ?? run.state.at - 1;
  const when = at === told ? " now" : at >= run.state.at ? " later" : view.rounds && at >= wayOn(-1) ? " too" : "";
  const ticket = element("b", {}, "t" + move.ticket);
  ticket.style.color = moveColour(move);
  const line = element("div", { class: "line" + when, title: run.trace.lines[at], "data-at": at },
    element("span", { class: "count" }, String(move.number)), ticket, ` ${move.name} ${move.node}  ${brief(logEnd(move))}`);
  line.style.top = at * LOG_LINE + "px";
  return line;
}

function logEnd(move) {
  switch (move.kind) {
    case "kept": return "kept " + move.in + " " + move.before.value;
    case "answer": return "answer " + move.value;
    case "fork": return "fork t" + move.ticket2;
    case "joined": return "join " + move.after.value;
    default: return tokenText(move.after);
  }
}

const tokenText = ({ value, direction, wire, work, boxes }) => `${value}${direction === "up" ? "↑" : "↓"}${wire} ${brief(work)} ${boxes}`;

// Has the line of the last move in sight.
function scrollLog() {
  const box = byId("log");
  const top = (view.told ?? view.run.state.at - 1) * LOG_LINE;
  if (top < box.scrollTop + LOG_LINE || top > box.scrollTop + box.clientHeight - 2 * LOG_LINE) {
    box.scrollTop = Math.max(0, top - box.clientHeight / 2);
  }
  drawLog();
}
