// Rounds: the second way to go along a run. In a round every live token makes one move. The moves are those of the run: in every order of
// moves the same ones are made, so they are put into the order of rounds, and tickets get the numbers that they have in it.

// Why a run can't be told in rounds, or null.
function whyNoRounds(run) {
  if (!run.whole) return "Only part of the run is here, and rounds want all of it.";
  return run.trace.value === null ? "The run has no answer, so that its last rounds aren't whole." : null;
}

// In how many rounds a run can be made, and the most tokens that move in one. An answer that is kept waits for the other.
class Span {
  constructor() { Object.assign(this, { next: new Map([[0, 0]]), kept: new Map(), widths: [] }); }

  take(move) {
    const round = this.next.get(move.ticket);
    this.widths[round] = (this.widths[round] || 0) + 1;
    const key = move.node + " " + move.before.boxes;
    let after = round + 1;
    if (move.kind === "fork") this.next.set(move.ticket2, after);
    if (move.kind === "kept") this.kept.set(key, after);
    if (move.kind === "joined") {
      after = Math.max(after, this.kept.get(key));
      this.kept.delete(key);
    }
    this.next.set(move.ticket, after);
  }

  get rounds() { return this.widths.length; }
  get most() { return this.widths.reduce((one, two) => Math.max(one, two), 0); }
}

// {text, starts, order, tickets}: the trace in rounds, the place of the first move of each round and behind the last, each move's own
// place, and its ticket.
function inRounds(run) {
  const made = new Reordered(run);
  const starts = [0];
  while (made.live.size > 0) {
    for (const ticket of [...made.live.keys()].sort((one, two) => one - two)) made.make(ticket);
    starts.push(made.lines.length);
  }
  return { text: made.text(), starts, order: made.order, tickets: made.made };
}

// The run in rounds is made when it is first asked for, and is held against the net as every trace is.
function setRounds(on) {
  const why = on ? whyNoRounds(view.alone.run) : null;
  if (why !== null) { byId("announce").textContent = why; return; }
  if (on === (view.rounds !== null)) return;
  if (on && guess.on) setGuess(false);
  if (on && beside.byCalls) setByCalls(false);
  pause();
  const { alone } = view;
  if (on && !view.together) {
    const { text, starts, order } = inRounds(alone.run);
    const questions = new Questions(view.net, programText.term, readTrace(text));
    view.together = { run: questions.run, questions, starts, order };
  }
  const from = view.run.state.at;
  const told = view.told ?? from - 1;
  const { order, starts } = view.together;
  Object.assign(view, { run: on ? view.together.run : alone.run, questions: on ? view.together.questions : alone.questions });
  view.rounds = on ? starts : null;
  view.told = null;
  tellWay();
  forgetStrip();
  forgetTokens();
  drawNet();
  sizeLog();
  if (from === 0) show(0);
  else show(on ? order.indexOf(from - 1) + 1 : order[told] + 1);
}

// How many rounds are begun before so many moves.
function roundsUpTo(at) {
  const { starts } = view.together;
  let low = 0;
  let high = starts.length - 1;
  while (low < high) {
    const middle = (low + high) >> 1;
    if (starts[middle] < at) low = middle + 1; else high = middle;
  }
  return low;
}

// The way that is shown is counted in moves, or in rounds: how far the state is, and the place of a number.
const wayLength = () => view.rounds ? view.rounds.length - 1 : view.run.length;
const wayMade = () => view.rounds ? roundsUpTo(view.run.state.at) : view.run.state.at;
const wayFirst = () => view.rounds ? 0 : view.run.first;
const wayPlace = number => view.rounds ? view.rounds[Math.max(0, Math.min(view.rounds.length - 1, Math.round(number)))] : number;
const wayOn = count => wayPlace(wayMade() + count);

// The state behind so many moves, or in rounds that behind the round in which the last of them is.
const wholeWay = at => view.rounds ? view.rounds[roundsUpTo(at)] : at;

// What bounds the slider and the number, and what they count.
function tellWay() {
  const { run, rounds } = view;
  const length = wayLength();
  byId("slider").max = length;
  byId("now").min = wayFirst();
  byId("now").max = wayFirst() + length;
  byId("of").textContent = rounds || run.trace.moves === null ? wayFirst() + length : run.trace.moves;
  byId("unit").textContent = rounds ? "rounds" : "moves";
  byId("rounds").setAttribute("aria-pressed", rounds !== null);
  byId("rounds").disabled = whyNoRounds(view.alone.run) !== null;
}

// The moves that are made at once from a place on: one, or those of its round.
function movesAtOnce(at) {
  const to = view.rounds ? Math.max(at + 1, wayOn(1)) : at + 1;
  const moves = [];
  for (let place = at; place < Math.min(to, view.run.length); place++) moves.push(view.run.move(place));
  return moves;
}
