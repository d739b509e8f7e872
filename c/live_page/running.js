// What is asked of the machine, and what is shown of its answers.

const OK = 0;
const REFUSED = 1;
const NO_VALUE = 5;
const NO_MEMORY = 6;
const BAD_FILE = 7;
const BY_VALUE = 1;
const SCHEDULE = 2;
const BUDGET = 10000;
const MOST_BUDGET = 10000000;
// A page shows so many moves of a run, as `goi trace` prints them where nothing else is asked.
const MOST_SHOWN = 100000;
// An address has programs up to so many characters.
const MOST_ADDRESS = 4000;

const given = JSON.parse(byId("goi-given").textContent);
// What a press on `run` or `check` began, until it has ended.
let underWay = null;
// The file whose program was put into the box last.
let opened = { name: "", text: null };

const exampleOf = text => Object.keys(given.examples).find(name => given.examples[name] === text);
const byValue = () => byId("own-by-value").checked;

function budgetGiven() {
  const budget = Math.min(Math.max(Math.trunc(Number(byId("own-budget").value)) || 1, 1), MOST_BUDGET);
  byId("own-budget").value = budget;
  return budget;
}

function line(words, name) {
  const made = document.createElement("div");
  made.className = name;
  made.textContent = words;
  return made;
}

// What is said below the buttons: the machine's own lines, and an aside.
function say(text, aside = "", isBad = false) {
  byId("own-said").replaceChildren(line(text, isBad ? "bad" : "fine"));
  if (aside) addAside(aside);
}

const addAside = words => byId("own-said").append(line(words, "aside"));

const timeText = milliseconds => milliseconds < 1000 ? `${Math.round(milliseconds)} ms` : `${(milliseconds / 1000).toFixed(1)} s`;
// The value and the moves, with which the machine's answer begins.
const reportOf = text => text.split("\n", 2).join(", ").replace(/, $/, "");

const CUT = "The program is nested too deeply for this browser: its stack ended before the machine did. The machine was started anew.";

// What is said where a call has no answer to show; the box is that of the text which the call reads besides the program. What was open
// before stays so, which is said as well.
function sayNothingCame(text, found, box) {
  if (found.stopped) say("stopped");
  else if (found.cut) say("cut off", `${CUT} ${given.heights} (${found.cut})`, true);
  else if (found.status === REFUSED) sayRefusal(text, found.text.trim());
  else if (found.status === BAD_FILE) sayBadFile(box, found.text.trim());
  else if (found.status === NO_MEMORY) say("no memory", `It wanted more than the ${asking.most / 2 ** 20} MiB that it may take.`, true);
  else say(`status ${found.status}`, found.text, true);
  if (walk.view.run) addAside(`The walk that is shown is still that of ${walk.view.name}.`);
}

// Does what a press asks for, one at a time: a new press ends what is under way.
async function begin(task) {
  stopAsking();
  const own = {};
  underWay = own;
  document.body.classList.add("busy");
  byId("own-stop").disabled = false;
  BOXES.forEach(unmark);
  say("");
  try {
    await task(() => underWay === own);
  } catch (error) {
    if (underWay === own) say("the page failed", error.message, true);
  }
  if (underWay !== own) return;
  underWay = null;
  document.body.classList.remove("busy");
  byId("own-stop").disabled = true;
}

// Makes calls until one has no answer to show, and says so then: null. The text is the one to which a place of a fault belongs.
async function asked(text, name, texts, numbers, isMine, box = "own") {
  const found = await ask(name, texts, numbers);
  if (!isMine()) return null;
  if (found.status === OK || found.status === NO_VALUE) return found;
  sayNothingCame(text, found, box);
  return null;
}

const check = () => begin(async isMine => {
  const text = programGiven();
  const found = await asked(text, "goi_check", [text], [1], isMine);
  if (found) say(found.text.trim(), timeText(found.milliseconds));
});

// Runs the program, and opens its walk.
const run = (asWalk = () => {}) => begin(async isMine => {
  const text = programGiven();
  const budget = budgetGiven();
  const strict = byValue();
  const traced = await asked(text, "goi_trace", [text], [budget, strict ? BY_VALUE : 0, 0, MOST_SHOWN], isMine);
  if (!traced) return;
  const report = reportOf(traced.text);
  const listed = await asked(text, "goi_net", [text], [], isMine);
  if (!listed) return;
  const walked = strict ? await translated(text, listed.text, isMine) : { program: text, net: listed.text };
  if (!walked) return;
  if (!walked.net) {
    say(report, `The walk can't be shown: ${walked.why}`);
    return;
  }
  walk.openWalk({ ...namesOf(text, strict), ...walked, trace: traced.text });
  setFolded(true);
  if (textIn("net") === nets.listed) putNet(listed.text);
  if (textIn("schedule") === schedule.taken) putSchedule("");
  byId("own-save").disabled = false;
  const moves = Number(/^moves (\d+)$/m.exec(traced.text)[1]);
  const part = moves > MOST_SHOWN ? `; the first ${MOST_SHOWN} moves are shown` : "";
  say(report, timeText(traced.milliseconds) + part);
  rememberProgram(text, strict, budget);
  asWalk();
});

// The text and the net of the translation by value. Its text is deeper than the program, so that the machine can refuse to read it.
async function translated(text, net, isMine) {
  const program = translationOf(text, walk.readNet(net));
  const found = await ask("goi_net", [program], []);
  if (!isMine()) return null;
  if (found.status === OK) return { program, net: found.text };
  const said = found.text?.trim() || (found.stopped ? "stopped" : found.cut ? "cut off" : "no memory");
  return { why: `the machine gives no net of the translation's text (${said}).` };
}

// How the walk is called: as the example or the opened file is, where its text is unchanged; and the translation by a name of its own.
function namesOf(text, strict) {
  const example = exampleOf(text);
  const name = example ?? (text === opened.text ? opened.name : "program.pcf");
  if (strict) return { name: `${name}, by value`, file: name.replace(/(\.pcf)?$/, "-by-value.pcf") };
  return { name, file: example ? `examples/${name}` : name };
}

// The program that is shown, as a file: `goi replay` wants it beside a schedule that was saved.
const saveProgram = () => walk.saveFile(walk.view.file.split("/").pop(), "text/plain", walk.view.program);

// The program is in the address, so that it can be passed on with its moment: by its name where it is an example, and a very long one not.
// So is a schedule that was replayed, its lines with commas between.
function rememberProgram(text, strict, budget, order = "") {
  const address = new URLSearchParams();
  const example = exampleOf(text);
  if (example) address.set("example", example.replace(/\.pcf$/, ""));
  else if (text.length <= MOST_ADDRESS) address.set("program", text);
  if (strict) address.set("by-value", 1);
  if (budget !== BUDGET) address.set("budget", budget);
  if (order !== "" && order.length <= MOST_ADDRESS) address.set("schedule", rowsIn(order).map(it => `${it.ticket} ${it.count}`).join());
  walk.view.address = address + "&";
}

// The lines of a text that an address has with commas between.
const linesOf = text => text.split(",").filter(it => it !== "");

// Runs the program that the address has, or replays the schedule that is there as well; without a program, what is shown at first. The
// address can name the text that is shown: `show=net`. A listing in it is put into the box of the net, and run.
function beginWithAddress() {
  const { hash } = location;
  const wanted = new URLSearchParams(hash.slice(1));
  const text = wanted.get("program") ?? given.examples[wanted.get("example") + ".pcf"];
  const order = wanted.get("schedule");
  const shownOrder = new URLSearchParams(walk.view.address).get("schedule");
  const listing = wanted.get("net");
  if (walk.view.run && listing === null && (text === undefined || (text === programGiven() && order === shownOrder))) return;
  putProgram(text ?? given.examples[given.first]);
  byId("own-by-value").checked = wanted.get("by-value") === "1";
  byId("own-budget").value = wanted.get("budget") ?? BUDGET;
  showExample();
  if (wanted.has("theme")) walk.setTheme(wanted.get("theme"));
  const then = () => {
    walk.goToAddress(hash);
    if (listing !== null) {
      putText("net", [...linesOf(listing), ""].join("\n"));
      showTab("net");
      runNet();
    } else if (TABS.includes(wanted.get("show"))) {
      openTab(wanted.get("show"));
    }
  };
  if (order === null) { run(then); return; }
  putSchedule(["schedule 2", ...linesOf(order), "end", ""].join("\n"));
  showTab("schedule");
  replay(then);
}

// The list shows the example whose text is in the box.
function showExample() {
  byId("own-example").value = exampleOf(programGiven()) ?? "";
}

// Behind the examples the list has the moments of them that the lessons name.
function addMoments() {
  for (const lesson of new Set(given.moments.map(it => it.lesson))) {
    const group = document.createElement("optgroup");
    group.label = "lesson " + lesson;
    for (const { example, move, text } of given.moments.filter(it => it.lesson === lesson)) {
      const name = `${example.replace(/\.pcf$/, "")}, move ${move}`;
      group.append(new Option(text ? `${name}: ${text}` : name, `${example} ${move}`));
    }
    byId("own-example").append(group);
  }
}

function takeExample() {
  const [name, move] = byId("own-example").value.split(" ");
  if (given.examples[name] === undefined) return;
  putProgram(given.examples[name]);
  if (move !== undefined) byId("own-by-value").checked = false;
  run(() => { if (move !== undefined) walk.show(Number(move)); });
  showExample();
}

function stop() {
  if (underWay) stopAsking();
}

function joinButtons() {
  byId("own-example").append(...Object.keys(given.examples).map(name => new Option(name.replace(/\.pcf$/, ""), name)));
  byId("own-run").addEventListener("click", () => run());
  byId("own-check").addEventListener("click", check);
  byId("own-stop").addEventListener("click", stop);
  addMoments();
  byId("own-example").addEventListener("change", takeExample);
  byId("own-text").addEventListener("input", () => {
    unmark("own");
    showExample();
    fitBox();
    placeMarks();
  });
  byId("own-text").addEventListener("scroll", () => {
    scrollMarks("own");
    if (byId("box-program").contains(byId("program"))) byId("program").scrollTop = boxOf("own").scrollTop;
  });
  // (The page scrolls its own program to the part that is marked.)
  byId("program").addEventListener("scroll", () => {
    if (byId("box-program").contains(byId("program"))) boxOf("own").scrollTop = byId("program").scrollTop;
  });
  for (const name of ["net", "schedule"]) boxOf(name).addEventListener("scroll", () => scrollMarks(name));
  byId("net-text").addEventListener("input", () => unmark("net"));
  byId("net-run").addEventListener("click", runNet);
  byId("net-list").addEventListener("click", listNet);
  byId("net-save").addEventListener("click", saveNet);
  byId("own").addEventListener("keydown", event => {
    // (From the text to the picture by one key, where the arrows walk.)
    if (event.key === "Escape" && !underWay && walk.view.run) byId("picture").focus();
    if (event.key === "Escape") stop();
    if (event.key !== "Enter" || !(event.ctrlKey || event.metaKey)) return;
    event.preventDefault();
    ({ net: runNet, schedule: () => replay(), values: callEach, steps: () => listSteps(0) }[tabShown()] ?? (() => run()))();
  });
  byId("own-save").addEventListener("click", saveProgram);
  walk.view.runProgram = (text, name) => {
    putProgram(text);
    opened = { name, text: programGiven() };
    showExample();
    run();
  };
  addEventListener("hashchange", beginWithAddress);
  joinTabs();
  joinSchedules();
  joinSteps();
  joinValues();
}

// For the tests, and for whoever looks at the page with a browser's own tools.
window.machine = { ask, asking, stop, translationOf, placeOf, putSchedule, openTab, tableOfValues };
joinButtons();
beginWithAddress();
