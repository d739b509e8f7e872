// The page begins: what is inside it is opened, and what its address says is done.

// What the address says. It may be anybody's: a number that is none says nothing.
function goToAddress(hash = location.hash) {
  const wanted = new URLSearchParams(hash.slice(1));
  const saysNumber = name => /^\d+(\.\d+)?$/.test(wanted.get(name));
  if (wanted.has("theme")) setTheme(wanted.get("theme"));
  if (wanted.has("wall")) setWall(true);
  if (COLOURED_BY.includes(wanted.get("colour"))) setColourBy(wanted.get("colour"));
  if (wanted.has("types") && !view.types) setTypes(true);
  if (wanted.has("rules") && !view.rules) setRules(true);
  if (saysNumber("zoom")) zoom(Number(wanted.get("zoom")) / camera.scale);
  if (wanted.has("round") || view.rounds) setRounds(wanted.has("round"));
  if (saysNumber("round") && view.rounds) jump(wayPlace(Number(wanted.get("round"))));
  const move = Number(wanted.get("move"));
  if (saysNumber("move") && move !== movesMade()) jump(Math.trunc(move) - view.run.first);
  if (wanted.has("guess") && !guess.on) setGuess(true);
}

function start() {
  joinHands();
  const inside = byId("data").textContent;
  if (inside === "") return;
  try {
    openWalk(JSON.parse(inside));
  } catch (error) {
    tellTrouble(error.message);
    return;
  }
  goToAddress();
}

// For the page with the machine inside, for the tests, and for whoever looks at the page with a browser's own tools.
window.walk = {
  view, camera, playing, drawing, keys: KEYS, show: jump, showAll, zoom, shownRange, goOther, setSpeed, setTypes, setTheme, setColourBy,
  openFiles, openWalk, goToAddress, saveFile, readNet, readTerm, namesIn, ruleOf, pictureText, whyNoSwap, swappedSchedule,
  spelled, marksIn, waitingRows, waitingTitle, chainOfMark, textOf, programText, termText,
  setRounds, inRounds, setWall, setRules, stripMarks, Reordered, replayed, scheduleText, readTrace, traceHead, Run,
  putRows, activeRow, activateRow, joinRows, setProgramHome, fileStem, beside, guess, putSteps, steps, stepVisits, visitsOf,
};
start();
