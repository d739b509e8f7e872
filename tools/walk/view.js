// What is open and how it is shown. Everything that is drawn comes from here and from the state of the run.

const view = {
  // The program's name and text, and the file as the command line called it.
  name: "",
  file: "",
  program: "",
  netText: null,
  traceText: null,
  stepsText: undefined,
  net: null,
  layout: null,
  run: null,
  // The questions and whole stacks along the run.
  questions: null,
  // The run as the trace has it and the run in rounds, each with its questions; the place of each round where the run is shown in rounds.
  alone: null,
  together: null,
  rounds: null,
  // In rounds the place of the move that is told, where it isn't the last of its round; else null.
  told: null,
  // Types beside the wires, rules in the nodes, the picture following the token, the card with the stacks beside the token.
  types: false,
  rules: false,
  follow: true,
  card: true,
  // For a wall: large letters, and no panels.
  wall: false,
  // One of COLOURED_BY.
  colourBy: "ticket",
  // The ticket whose token is looked at where it isn't the one that moved last, or null.
  chosen: null,
  // The wire whose tokens alone are listed, or null.
  onlyWire: null,
  // What the address has in front of the number of moves and at its end, and what runs a program that is opened alone: for a page with the
  // machine inside.
  address: "",
  addressEnd: () => "",
  runProgram: null,
  // The same page's: what replays a schedule on the program that is shown.
  runSchedule: null,
  // The same page's: the element that has the program's text where its panel hasn't, and what is done when a walk was opened, and when it
  // has moved.
  programHome: null,
  opened: () => {},
  moved: () => {},
};

function sizesNow() {
  if (view.rules && view.wall) return view.types ? { ...WALL_SIZES, rules: true } : RULE_WALL_SIZES;
  return view.rules ? RULE_SIZES : view.wall ? WALL_SIZES : SIZES;
}

const COLOURS = 8;
const COLOURED_BY = ["ticket", "worker", "call"];
const colour = number => "var(--k" + number % COLOURS + ")";

// The number of the colour of the move at this place: its ticket, its worker, or the call of a recursive term for which it is made.
function moveNumber(at) {
  const { run, questions } = view;
  switch (view.colourBy) {
    case "worker": return run.workerOf[at];
    case "call": return questions.callOf(questions.given[at].hole);
    default: return run.ticketOf[at];
  }
}
const moveColour = move => colour(moveNumber(move.number - view.run.first));

// The same of a live token in the state that is shown.
function tokenNumber(ticket) {
  const { run, questions } = view;
  switch (view.colourBy) {
    case "worker": return run.lastWorkerOf(ticket);
    case "call": return questions.callOf(questions.of(ticket, run.state.live.get(ticket)).hole);
    default: return ticket;
  }
}
const tokenColour = ticket => colour(tokenNumber(ticket));

// The move that is told: the last one, or in rounds the chosen one of the last round; null at the start.
const toldMove = () => view.told === null ? view.run.lastMove() : view.run.move(view.told);

// The token that is looked at, with its ticket: the chosen one, or that of the move that is told; the first live one at the start; null
// where none is left.
function shownToken() {
  const { live } = view.run.state;
  if (live.has(view.chosen)) return { ticket: view.chosen, token: live.get(view.chosen) };
  const move = toldMove();
  if (move && move.after && live.has(move.ticket)) return { ticket: move.ticket, token: move.after };
  // In rounds the last token of a round may have ended where others live on.
  if (move && !view.rounds) return null;
  const first = live.entries().next();
  return first.done ? null : { ticket: first.value[0], token: first.value[1] };
}

// How many moves were made before the state that is shown, counted from the beginning of the run.
const movesMade = () => view.run.first + view.run.state.at;
