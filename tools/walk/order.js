// A run in another order of moves. In every order the same moves are made, so its lines are put into the other order: tickets get the
// numbers that they have there, and of a fork's two answers the one that comes first is the one that is kept.

// For each move of a run its token's next one, for a fork that of its second ticket, and for a join its two moves, by place.
function linksOf(run) {
  const next = new Int32Array(run.length).fill(-1);
  const second = new Map();
  const joins = new Map();
  const kept = new Map();
  const last = new Map();
  for (let at = 0; at < run.length; at++) {
    const move = run.move(at);
    const before = last.get(move.ticket);
    if (before && before.second) second.set(before.at, at); else if (before) next[before.at] = at;
    last.set(move.ticket, { at });
    const key = move.node + " " + move.before.boxes;
    if (move.kind === "fork") last.set(move.ticket2, { at, second: true });
    if (move.kind === "kept") { kept.set(key, at); last.delete(move.ticket); }
    if (move.kind === "joined") { joins.set(at, kept.get(key)); joins.set(kept.get(key), at); kept.delete(key); }
  }
  return { next, second, joins };
}

// A run that has its answer, made anew in an order that is told ticket by ticket.
class Reordered {
  constructor(run) {
    // `order` has the place in the run of each move that was made, and `made` its ticket here.
    Object.assign(this, { run, links: linksOf(run), lines: [], order: [], made: [], done: new Set(), tickets: 1 });
    // For each live ticket the place of its next move in the run.
    this.live = new Map([[0, 0]]);
  }

  // Makes the next move of a ticket; whether it is live.
  make(ticket) {
    const at = this.live.get(ticket);
    if (at === undefined) return false;
    const { next, second, joins } = this.links;
    const { run, lines, live, done } = this;
    const other = joins.get(at);
    const words = run.trace.lines[at].split(" ");
    let then = next[at];
    if (other !== undefined) {
      const joined = done.has(other);
      const late = run.move(at).kind === "joined" ? at : other;
      words.splice(10, Infinity, joined ? "conclusion" : "-", ...words.slice(11, 17),
        ...(joined ? run.trace.lines[late].split(" ").slice(17) : ["kept"]));
      then = joined ? next[late] : -1;
      done.add(at);
    }
    Object.assign(words, { 1: lines.length, 3: 0, 5: ticket });
    if (second.has(at)) {
      words[23] = this.tickets;
      live.set(this.tickets++, second.get(at));
    }
    lines.push(words.join(" "));
    this.order.push(at);
    this.made.push(ticket);
    if (then < 0) live.delete(ticket); else live.set(ticket, then);
    return true;
  }

  // The trace of the moves that were made, as `goi replay --trace` prints it.
  text() {
    const { run: { trace }, lines } = this;
    const value = this.live.size === 0 ? "value " + trace.value : "no value";
    return [value, "moves " + lines.length, "trace 1", trace.live[0].words.join(" "), ...lines, "end", ""].join("\n");
  }
}

// The trace of a schedule on the program of a run that has its answer; null where a ticket isn't live when its turn comes.
function replayed(run, tickets) {
  const made = new Reordered(run);
  return tickets.every(ticket => made.make(ticket)) ? made.text() : null;
}
