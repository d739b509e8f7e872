// A walk with some stops, for who sees the page for the first time: the example inside, and what is to be seen behind so many moves.

const STOPS = [
  [0, "This net is the program. @ is the application. The function, λ, is at its left, and its argument 3, in a box, at its right. " +
    "x is used twice: each Der is a use. One token, a question, asks for the program's value. It begins at Root and goes up."],
  [3, "At the + both operands are asked for at once. Ticket 0 goes on to the left x, and the new ticket 1 asks for the right one. " +
    "The entry beside the + waits for two answers."],
  [7, "Ticket 0 has gone down from the left use to the argument's box. Its work stack has l*: this is the left use of x. " +
    "What the token needs to find its way back is in its stacks, and not in the net."],
  [8, "In the box the mark l* is on the box stack: the token is in the argument as the left use has it. Nothing was copied. " +
    "The net never changes."],
  [15, "3 has answered, and the answer has gone back the way that its question came. It is kept at the +, and ticket 0 has ended. " +
    "Ticket 1 goes the same way, with r*."],
  [27, "The second answer meets the first: 3 + 3 is 6. In another order of moves the other answer would come first, and the sum " +
    "would be the same."],
  [30, "6 has come to Root, after 30 moves. Play it once more with the space bar, or press ? for the keys."],
];

const tour = { at: -1, before: null };

function beginTour() {
  if (tour.at < 0) tour.before = view.run ? { data: shownData(), at: view.run.state.at } : null;
  if (view.wall) setWall(false);
  if (guess.on) setGuess(false);
  setMenu(false);
  openWalk(JSON.parse(byId("first-data").textContent));
  goToStop(0);
  byId("tour-on").focus();
}

function goToStop(at) {
  tour.at = at;
  const [move, text] = STOPS[at];
  byId("tour-title").textContent = `What am I seeing? ${at + 1} of ${STOPS.length}`;
  byId("tour-text").textContent = text;
  byId("tour-back").disabled = at === 0;
  byId("tour-on").textContent = at + 1 < STOPS.length ? "on" : "end";
  showTour(true);
  jump(move);
}

// The tour's card is below the picture, so that it covers nothing of it, and the whole net is seen.
function showTour(on) {
  byId("tour").hidden = !on;
  document.body.classList.toggle("touring", on);
  showHome();
}

const goOnTour = by => tour.at + by < STOPS.length ? goToStop(Math.max(0, tour.at + by)) : endTour();

// What was open before is open again.
function endTour() {
  if (tour.at < 0) return;
  const { before } = tour;
  Object.assign(tour, { at: -1, before: null });
  showTour(false);
  if (!before) return;
  reopen(before.data);
  jump(before.at);
}
