// Who waits for what: the tree of questions of docs/WHY.md, folded from the lines of a run. A frame is a question that waits: the
// program's, an application's, a use of a variable's, a test's, an operator's. A hole is a side of a frame, and each token is in one.
// For an answer comes back the way that its question went, so that what was asked last is answered first, but for the sides of a fork.

class Questions {
  constructor(net, term, trace) {
    Object.assign(this, { net, term });
    this.marks = new Marks(net, term.boxOf);
    // What each line gave: {work, boxes, hole}; and what a fork gave its second ticket.
    this.given = new Array(trace.lines.length);
    this.second = new Map();
    // The tokens before the first line.
    this.first = new Map();
    // For each function in its copy of the boxes around it, the frame of its application; and the values of its variable, with the place
    // of the line that told it.
    this.calls = new Map();
    this.values = new Map();
    // The number of each call of a recursive term: of its mark on the marks of the boxes around it.
    this.numbers = new Map();
    this.counts = new Map();
    this.doors = new Map();
    this.span = new Span();
    this.begin(trace);
    this.run = new Run(trace, net, (move, at) => this.take(move, at));
  }

  frame(kind, node, boxes, hole, at) { return { kind, node, boxes, hole, at, kept: {}, called: new Map(), own: null }; }

  // The state before the first line.
  begin(trace) {
    // Calls of a part of a run aren't counted, since those before it aren't known.
    this.isPart = trace.first !== 0;
    const root = this.frame(trace.first === 0 ? "root" : "earlier", this.net.nodes.length - 1, null, null, -1);
    for (const { words } of trace.live) {
      const token = tokenOf(words, 2);
      const [work, boxes] = [token.work, token.boxes].map(stack => this.marks.given(stack || "-"));
      this.first.set(Number(words[1]), { work, boxes, hole: { frame: root, side: "value" } });
    }
    this.now = new Map(this.first);
  }

  // A line of the trace.
  take(move, at) {
    this.span.take(move);
    const before = this.now.get(move.ticket);
    const stacks = this.marks.after(move, before);
    const hole = this.holeAfter(move, before, stacks, at);
    const given = { work: stacks.work, boxes: stacks.boxes, hole };
    this.given[at] = given;
    this.now.set(move.ticket, given);
    if (move.kind !== "fork") return;
    const second = { work: stacks.work, boxes: stacks.boxes, hole: { frame: hole.frame, side: "right" } };
    this.second.set(at, second);
    this.now.set(move.ticket2, second);
  }

  // What is known of a live token.
  of(ticket, token) {
    if (token.line === undefined) return this.first.get(ticket);
    const at = token.line - this.run.first;
    return this.run.ticketOf[at] === ticket ? this.given[at] : this.second.get(at);
  }

  // The hole in which a token is behind a move.
  holeAfter(move, before, after, at) {
    const { hole } = before;
    if (move.before.value === "?") return this.asked(move, before, after, at);
    return this.answered(move, before, after, at) || hole;
  }

  asked(move, { work, boxes, hole }, after, at) {
    const opens = (kind, side) => ({ frame: this.frame(kind, move.node, boxes, hole, at), side });
    switch (move.name) {
      case "App": return move.in === "conclusion" && !work ? opens("call", "value") : hole;
      case "Fst": case "Snd": return move.in === "conclusion" && !work ? opens("part", "value") : hole;
      case "Der": return move.in === "value" && !work ? opens("use", "value") : hole;
      case "Succ": case "Pred": return opens("step", "operand");
      case "Ifz": return opens("test", "condition");
      case "Plus": case "Minus": case "Times": return opens("fork", "left");
      case "Lam": if (move.out === "body") this.enter(move, work, boxes, hole); return hole;
      case "FixBox": if (move.out === "body") this.count(after.boxes); return hole;
      default: return hole;
    }
  }

  // A function is entered: its application is the one that put R on top, and the question is that of the frame.
  enter(move, work, boxes, hole) {
    const { frame } = hole;
    if (frame.kind !== "call" || !work) return;
    const key = this.copy(move.node, boxes);
    if (!this.calls.has(key)) this.calls.set(key, frame);
    frame.called.set(work.mark.node, key);
    const { around } = this.term.parts.get(move.node);
    if (around && around.node.name === "FixBox") frame.own = boxes;
  }

  copy(node, boxes) { return node + " " + (boxes ? boxes.id : 0); }

  // A call of a recursive term gets its number where it is entered first: those in one copy of the boxes around it are counted together.
  count(boxes) {
    if (this.isPart || this.numbers.has(boxes)) return;
    const group = this.copy(boxes.box, boxes.rest);
    const number = (this.counts.get(group) || 0) + 1;
    this.counts.set(group, number);
    this.numbers.set(boxes, number);
  }

  answered(move, { hole }, after, at) {
    const { frame } = hole;
    const leaves = ["App function", "Fst operand", "Snd operand"].includes(move.name + " " + move.in) && move.out === "conclusion";
    const value = { value: move.before.value, at };
    switch (move.name) {
      case "App": case "Fst": case "Snd": return leaves && !after.work ? this.above(frame, move) : hole;
      case "Der":
        if (move.in !== "variable" || after.work) return hole;
        this.tell(move.node, after.boxes, value);
        return this.above(frame, move);
      case "Succ": case "Pred": return this.above(frame, move);
      case "Ifz":
        if (move.in !== "condition") return this.above(frame, move);
        if (frame.node === move.node) frame.kept.condition = value;
        return frame.node === move.node ? { frame, side: move.out } : hole;
      case "Plus": case "Minus": case "Times":
        if (frame.node === move.node) frame.kept[move.in] = value;
        return move.kind === "kept" ? hole : this.above(frame, move);
      default: return hole;
    }
  }

  // The hole of a frame that is answered. In a part of a run its question may have been asked before the first line.
  above(frame, move) { return frame.node === move.node && frame.hole ? frame.hole : { frame, side: "value" }; }

  // The number of the call for which a question is asked: of the nearest call of a recursive term above it, or 0. (It is asked for when the
  // whole run has been read, so that each call has its number.)
  callOf(hole) {
    const way = [];
    let number = 0;
    for (let frame = hole.frame; frame; frame = frame.hole && frame.hole.frame) {
      if (frame.call === undefined && frame.own) frame.call = this.numbers.get(frame.own) || 0;
      if (frame.call !== undefined) { number = frame.call; break; }
      way.push(frame);
    }
    for (const frame of way) frame.call = number;
    return number;
  }

  // A variable's value is told at one of its uses.
  tell(use, boxes, value) {
    const key = this.copyOfBinder(use, boxes);
    if (key !== null && !this.values.has(key)) this.values.set(key, value);
  }

  // The copy of the function that binds the variable of a use: doors lead out of boxes on the way there.
  copyOfBinder(use, boxes) {
    const { binder } = this.term.parts.get(use);
    if (this.net.nodes[binder].name !== "Lam") return null;
    let copy = boxes;
    for (let count = this.doorsOf(use); count > 0; count--) copy = copy ? copy.rest : null;
    return this.copy(binder, copy);
  }

  doorsOf(use) {
    if (!this.doors.has(use)) {
      let count = 0;
      let node = this.net.nodes[use];
      for (let wire = node.down[1]; ; wire = node.down[0]) {
        node = this.net.nodes[this.net.wires[wire].below];
        if (node.name === "Door") count++;
        else if (node.name !== "Con") break;
      }
      this.doors.set(use, count);
    }
    return this.doors.get(use);
  }

  // The value of a function's variable, where it was told before this state.
  valueOf(key) {
    const known = this.values.get(key);
    return known && known.at < this.run.state.at ? known.value : null;
  }

  // The frames of the state that is shown that wait, each with what is in its holes: {side: [{frame} or {ticket, token}]}.
  tree() {
    const inside = new Map();
    const add = (hole, what) => {
      while (hole) {
        const { frame, side } = hole;
        const known = inside.get(frame);
        const holes = known || {};
        (holes[side] ||= []).push(what);
        if (known) return;
        inside.set(frame, holes);
        [hole, what] = [frame.hole, { frame }];
      }
    };
    for (const [ticket, token] of [...this.run.state.live].sort((one, two) => one[0] - two[0])) {
      add(this.of(ticket, token).hole, { ticket, token });
    }
    return inside;
  }
}
