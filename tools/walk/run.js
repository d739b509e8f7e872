// The states along a trace: each is what the lines say, one after the other. A line tells its token before and after, so a state is kept
// now and then, and what lies between is folded again when somebody goes there.

class Run {
  // Reads every line once and holds it against the net. Whoever watches is given each move with its place.
  constructor(trace, net, watch) {
    this.net = net;
    this.trace = trace;
    this.length = trace.lines.length;
    this.first = trace.first;
    this.whole = trace.first === 0 && this.length > 0 && this.length === trace.moves;
    this.read = new Map();
    this.marks = [];
    this.workers = 1;
    this.nodeOf = new Int32Array(this.length);
    this.ticketOf = new Int32Array(this.length);
    this.workerOf = new Int32Array(this.length);
    this.state = this.start();
    this.kept = [{ at: 0, live: new Map(this.state.live), open: new Map(this.state.open), answer: this.state.answer }];
    this.scan(watch);
    this.go(0);
  }

  // The state before the first line of the trace.
  start() {
    const live = new Map();
    const open = new Map();
    for (const { words, line } of this.trace.live) {
      const token = tokenOf(words, 2);
      if (words.length !== 7 || !this.net.wires[token.wire]) throw new Error("Line " + line + " of the trace doesn't fit the net.");
      live.set(Number(words[1]), token);
    }
    for (const { words, line } of this.trace.open) {
      const node = this.net.nodes[words[1]];
      if (words.length !== 5 || !node || !OPERATORS[node.name]) throw new Error("Line " + line + " of the trace doesn't fit the net.");
      const side = word => word === "-" ? null : word;
      open.set(words[1] + " " + words[2], { node: node.id, boxes: words[2], left: side(words[3]), right: side(words[4]) });
    }
    return { at: 0, live, open, answer: live.size === 0 ? this.trace.value : null };
  }

  scan(watch) {
    for (let at = 0; at < this.length; at++) {
      const line = this.trace.lines[at];
      const move = readMove(line);
      const fault = move.number !== this.first + at ? "is out of order" : faultOfMove(line, move, this.net, this.state.live);
      if (fault) throw new Error("Line " + (this.trace.firstLine + at) + " of the trace " + fault + ": " + line.slice(0, 120));
      this.nodeOf[at] = move.node;
      this.ticketOf[at] = move.ticket;
      this.workerOf[at] = move.worker;
      this.workers = Math.max(this.workers, move.worker + 1);
      if (move.kind !== "solo") this.marks.push({ at, kind: move.kind });
      watch(move, at);
      this.apply(move);
      // A kept state costs what is live, so that they are the farther apart the more is live.
      const last = this.kept[this.kept.length - 1].at;
      const { live, open, answer } = this.state;
      if (at + 1 - last >= Run.GRAIN + (live.size + open.size >> 2)) {
        this.kept.push({ at: at + 1, live: new Map(live), open: new Map(open), answer });
      }
    }
  }

  // The move of a line of the trace, counted from 0.
  move(at) {
    let move = this.read.get(at);
    if (!move) {
      if (this.read.size > 4000) this.read.clear();
      move = readMove(this.trace.lines[at]);
      this.read.set(at, move);
    }
    return move;
  }

  apply(move) {
    const { live, open } = this.state;
    const key = move.node + " " + move.before.boxes;
    switch (move.kind) {
      case "solo":
        live.set(move.ticket, move.after);
        break;
      case "fork":
        live.set(move.ticket, move.after);
        live.set(move.ticket2, move.after2);
        open.set(key, newEntry(move));
        break;
      case "kept":
        live.delete(move.ticket);
        open.set(key, { ...newEntry(move), ...open.get(key), [move.in]: move.before.value });
        break;
      case "joined":
        live.set(move.ticket, move.after);
        open.delete(key);
        break;
      case "answer":
        live.delete(move.ticket);
        this.state.answer = move.value;
        break;
    }
    this.state.at++;
  }

  // The state behind so many lines.
  go(to) {
    to = Math.max(0, Math.min(this.length, to));
    if (to < this.state.at || to - this.state.at > Run.GRAIN) this.restore(to);
    while (this.state.at < to) this.apply(this.move(this.state.at));
    return this.state;
  }

  // The last kept state that isn't behind this place.
  restore(to) {
    let low = 0;
    let high = this.kept.length - 1;
    while (low < high) {
      const middle = (low + high + 1) >> 1;
      if (this.kept[middle].at <= to) low = middle; else high = middle - 1;
    }
    const { at, live, open, answer } = this.kept[low];
    this.state = { at, live: new Map(live), open: new Map(open), answer };
  }

  // The move that was made last, or null at the start.
  lastMove() { return this.state.at > 0 ? this.move(this.state.at - 1) : null; }

  // The worker that moved this ticket last, or the one that will move it first.
  lastWorkerOf(ticket) {
    if (!this.ownMoves) {
      this.ownMoves = new Map();
      for (let at = 0; at < this.length; at++) {
        if (!this.ownMoves.has(this.ticketOf[at])) this.ownMoves.set(this.ticketOf[at], []);
        this.ownMoves.get(this.ticketOf[at]).push(at);
      }
    }
    const own = this.ownMoves.get(ticket);
    if (!own) return 0;
    let low = 0;
    let high = own.length - 1;
    while (low < high) {
      const middle = (low + high + 1) >> 1;
      if (own[middle] < this.state.at) low = middle; else high = middle - 1;
    }
    return this.workerOf[own[low]];
  }

  // How many tickets there are in the lines that are here.
  tickets() { return this.trace.live.length + this.marks.filter(mark => mark.kind === "fork").length; }
}
Run.GRAIN = 256;

// An open fork, before an answer has come.
const newEntry = ({ node, before, number }) => ({ node, boxes: before.boxes, left: null, right: null, line: number });
