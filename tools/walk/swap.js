// The schedule in which the next two moves are exchanged. The page makes no move: it offers the schedule as a file, and `goi` runs it.

// Why the next two moves can't be offered for exchange, or null where they can. Any other exchange would give later tickets other numbers.
function whyNoSwap(run) {
  const at = run.state.at;
  if (!run.whole) return "Only part of the run is here, and a schedule has all of it.";
  if (at + 1 >= run.length) return "No two moves are left.";
  const one = run.move(at);
  const two = run.move(at + 1);
  if (one.ticket === two.ticket) return "The next two moves are of one ticket.";
  if (one.kind === "fork" && one.ticket2 === two.ticket) return "The next move makes the ticket of the one after it.";
  if (one.kind === "fork" && two.kind === "fork") return "The next two moves are forks, and later tickets would have other numbers.";
  const joins = one.kind === "kept" && two.kind === "joined";
  if (joins && one.node === two.node && one.before.boxes === two.before.boxes) return "The next two moves are the answers of one fork.";
  return null;
}

// The text of a schedule: one line for each longest row of moves of one ticket.
function scheduleText(tickets) {
  const lines = ["schedule 2"];
  for (let at = 0; at < tickets.length;) {
    let end = at;
    while (end < tickets.length && tickets[end] === tickets[at]) end++;
    lines.push(tickets[at] + " " + (end - at));
    at = end;
  }
  return lines.join("\n") + "\nend\n";
}

// The schedule of the run with the next two moves exchanged.
function swappedSchedule(run) {
  const tickets = [...run.ticketOf];
  const at = run.state.at;
  [tickets[at], tickets[at + 1]] = [tickets[at + 1], tickets[at]];
  return scheduleText(tickets);
}

// A word of a command line, as a shell reads it back.
const shellWord = text => /^[\w.,:+@%/=-]+$/.test(text) && !text.startsWith("-") ? text : "'" + text.replaceAll("'", "'\\''") + "'";
