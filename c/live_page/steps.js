// The box of steps: the machine rewrites the program by name, term by term. The page of a walk lists them beside the walk's visits.

const MOST_STEPS = 200;

const listSteps = from => begin(async isMine => {
  const text = programGiven();
  const found = await asked(text, "goi_steps", [text], [budgetGiven(), from, MOST_STEPS], isMine);
  if (!found) return;
  walk.putSteps(text, found.text);
  say(walk.steps.said, timeText(found.milliseconds));
  const { why } = walk.stepVisits();
  if (why) addAside(why);
  byId("steps-before").disabled = firstStep() === 0;
  byId("steps-more").disabled = walk.steps.lines.length < MOST_STEPS;
});

const firstStep = () => walk.steps.lines[0]?.number ?? 0;

function joinSteps() {
  const from = by => Math.max(0, firstStep() + by * MOST_STEPS);
  byId("steps-list").addEventListener("click", () => listSteps(0));
  byId("steps-before").addEventListener("click", () => listSteps(from(-1)));
  byId("steps-more").addEventListener("click", () => listSteps(from(1)));
  byId("pane-steps").append(byId("steps-rows"));
}
