// The box of arguments: the program is a function of numbers, and the machine calls it at each row of them. What comes of it is a table of
// values and moves, with a picture of either.

const MOST_CALLS = 1000;
const GREATEST = 2n ** 64n - 1n;
// The arguments of each row that is shown, and what came of it.
const values = { rows: [], answers: [] };

// The rows of arguments that the words ask for, the last argument first to change; else a sentence that says which word isn't taken. A word
// is a number, or two of them with two points between, which stands for each number from the one to the other.
function rowsOfArguments(text) {
  let rows = [[]];
  for (const word of text.trim().split(/\s+/).filter(it => it !== "")) {
    const found = /^(\d+)(?:\.\.(\d+))?$/.exec(word);
    if (!found) return `${word} is no number, and no two numbers as in 0..20.`;
    const [from, to] = [BigInt(found[1]), BigInt(found[2] ?? found[1])];
    if (from > GREATEST || to > GREATEST) return `${word}: no number is above ${GREATEST}.`;
    if (from > to) return `${word}: ${from} is above ${to}.`;
    if ((to - from + 1n) * BigInt(rows.length) > BigInt(MOST_CALLS)) return `Those are more than ${MOST_CALLS} calls.`;
    const each = Array.from({ length: Number(to - from) + 1 }, (_, at) => from + BigInt(at));
    rows = rows.flatMap(row => each.map(it => [...row, it]));
  }
  return rows[0].length === 0 ? "Type an argument for each arrow of the function's type, as in 0..20 or 3 0..9." : rows;
}

// The program of a call: the function at the row's numbers.
const programOfCall = row => `(${programGiven().replace(/\n?$/, "\n")}) ${row.join(" ")}\n`;

const valueText = ({ kind, value }) => ["no value", value, "overflow"][kind];

const callEach = () => begin(async isMine => {
  const rows = rowsOfArguments(byId("values-arguments").value);
  putValues([], []);
  if (typeof rows === "string") { say("no call was made", rows, true); return; }
  const text = programGiven();
  const numbers = { each: rows[0].length, values: rows.flat().map(String), budget: budgetGiven() };
  const found = await asked(text, "goi_tell_each", [text], numbers, isMine);
  if (!found) return;
  putValues(rows, found.answers);
  const moves = found.answers.reduce((sum, it) => sum + it.moves, 0);
  const without = found.answers.filter(it => it.kind === 0).length;
  say(`${rows.length} ${rows.length === 1 ? "call" : "calls"}, ${moves} moves`, timeText(found.milliseconds));
  if (without > 0) addAside(`${without} of them came to no value within the budget.`);
});

function cell(words, name = "td") {
  const made = document.createElement(name);
  made.textContent = words;
  return made;
}

function putValues(rows, answers) {
  Object.assign(values, { rows, answers });
  byId("values-save").disabled = rows.length === 0;
  byId("values-rows").replaceChildren(...rows.map((row, at) => {
    const made = document.createElement("tr");
    const press = document.createElement("button");
    press.textContent = row.join(" ");
    press.title = "run the function at these numbers, and show the walk";
    press.addEventListener("click", () => showCall(at));
    const first = cell("");
    first.append(press);
    made.append(first, cell(valueText(answers[at])), cell(answers[at].moves));
    return made;
  }));
  byId("values-table").hidden = rows.length === 0;
  drawValues();
}

// The walk of a call: the program of the call is put into the box, and run.
function showCall(at) {
  putProgram(programOfCall(values.rows[at]));
  byId("own-by-value").checked = false;
  showExample();
  showTab("program");
  run();
}

// A point for each call, from the left to the right, as high as its moves or its value; a call without a value has none of a value.
function drawValues() {
  const { rows, answers } = values;
  const ofMoves = byId("values-what").value === "moves";
  const heights = answers.map(it => ofMoves ? it.moves : it.kind === 1 ? Number(it.value) : null);
  const most = Math.max(1, ...heights.filter(it => it !== null));
  const points = heights.flatMap((it, at) => it === null ? [] : [[4 + 292 * at / Math.max(1, rows.length - 1), 88 - 70 * it / most]]);
  const picture = byId("values-picture");
  picture.toggleAttribute("hidden", points.length < 2);
  picture.setAttribute("aria-label", `the ${ofMoves ? "moves" : "values"} of the calls in turn, up to ${most}`);
  picture.querySelector("polyline").setAttribute("points", points.map(([x, y]) => `${x.toFixed(1)},${y.toFixed(1)}`).join(" "));
  picture.querySelector("text").textContent = most;
}

// The table as lines of numbers with commas between.
function tableOfValues() {
  const { rows, answers } = values;
  const head = [...(rows[0] ?? []).map((_, at) => `argument ${at + 1}`), "value", "moves"];
  return [head, ...rows.map((row, at) => [...row, valueText(answers[at]), answers[at].moves])].map(it => it.join(",") + "\n").join("");
}

const saveValues = () => walk.saveFile(walk.fileStem() + ".csv", "text/csv", tableOfValues());

function joinValues() {
  byId("values-call").addEventListener("click", callEach);
  byId("values-save").addEventListener("click", saveValues);
  byId("values-what").addEventListener("change", drawValues);
  byId("values-arguments").addEventListener("keydown", event => {
    if (event.key !== "Enter" || event.ctrlKey || event.metaKey) return;
    event.preventDefault();
    callEach();
  });
}
