// The moves of a round in the panel of this move: a row for each, and the one that is told below is the present one. A press on a row tells
// that move.

const ROUND_ROWS = 200;

// The places of the moves of the round of this move, from its first one up to the one behind its last.
function roundOf(move) {
  const round = roundsUpTo(move.number + 1);
  return { round, from: view.rounds[round - 1], to: view.rounds[round] };
}

function tellRound(move) {
  const list = byId("round-moves");
  const box = byId("round");
  box.hidden = !view.rounds || !move;
  if (box.hidden) return;
  const { round, from, to } = roundOf(move);
  const count = to - from;
  byId("round-title").textContent = `round ${round}: ` + (count === 1 ? "one token moved" : `${count} tokens moved at once`);
  list.hidden = count === 1;
  if (list.hidden) { putRows(list, [], null); return; }
  const rows = [];
  for (let at = from; at < Math.min(to, from + ROUND_ROWS); at++) rows.push(roundRow(at, move));
  if (count > ROUND_ROWS) rows.push(element("div", { class: "empty" }, `and ${count - ROUND_ROWS} more`));
  putRows(list, rows, rows.find(row => row.matches(".present")) || null);
}

function roundRow(at, told) {
  const move = view.run.move(at);
  const isTold = move.number === told.number;
  const ticket = element("b", {}, "t" + move.ticket);
  ticket.style.color = moveColour(move);
  const { title } = ruleOf(move);
  const looks = { class: isTold ? "moved present" : "moved", role: "option", "aria-selected": isTold, "data-row": "" };
  const row = element("div", { ...looks, title: view.run.trace.lines[at] }, ticket,
    ` ${move.name} ${move.node}: ${title.replace(/^\w+: /, "")}, ${roundEnd(move)}`);
  row.addEventListener("click", () => jump(at + 1));
  return row;
}

// What a move of a round came to, in short.
function roundEnd(move) {
  switch (move.kind) {
    case "kept": case "answer": return move.before.value;
    case "fork": return "t" + move.ticket2;
    default: return move.after.value;
  }
}

// The nodes at which the moves happened that were made last, that of the move that is told first.
function nodesOfLast(move) {
  if (!move) return [];
  if (!view.rounds) return [move.node];
  const { from, to } = roundOf(move);
  return [...new Set([move.node, ...view.run.nodeOf.slice(from, to)])];
}
