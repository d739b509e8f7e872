// The texts of the box, one at a time; the box put away; and where the program is marked.

const TABS = ["program", "net", "schedule", "steps", "values", "trace"];
const narrow = matchMedia("(max-width: 1000px)");
const TRACE_SHOWN = 2000;
let boxWidth = 0;

const tabShown = () => TABS.find(name => byId("tab-" + name).getAttribute("aria-selected") === "true");

function showTab(wanted) {
  for (const name of TABS) {
    byId("tab-" + name).setAttribute("aria-selected", name === wanted);
    byId("tab-" + name).tabIndex = name === wanted ? 0 : -1;
    byId("pane-" + name).hidden = name !== wanted;
  }
  setFolded(false);
  if (wanted === "trace") showTrace();
}

// What a press on a tab has done besides: a box that is empty gets the program's own.
function openTab(name) {
  showTab(name);
  if (name === "net" && textIn("net") === "") listNet();
  if (name === "schedule" && textIn("schedule") === "") takeSchedule("run");
  if (name === "steps" && walk.steps.program !== programGiven()) listSteps(0);
}

// In a narrow window the box is put away when a walk is shown, so that the net has the room.
function setFolded(folded) {
  byId("own").classList.toggle("folded", folded);
  byId("own-fold").textContent = folded ? "edit" : "fold";
  byId("own-fold").setAttribute("aria-expanded", !folded);
  placeMarks();
}

// The program is marked in its box where the box is seen and has the text that walks; else in the panel.
function placeMarks() {
  const isSeen = tabShown() === "program" && !(narrow.matches && byId("own").classList.contains("folded"));
  const inBox = isSeen && walk.view.run !== null && walk.programText.own && walk.view.program === programGiven();
  walk.setProgramHome(inBox ? byId("box-program") : null);
  document.body.classList.toggle("in-box", inBox);
  if (inBox) byId("program").scrollTop = boxOf("own").scrollTop;
}

// A line of the trace for each row, broken at `=>`.
const traced = { text: null };
function showTrace() {
  const { traceText } = walk.view;
  byId("trace-save").disabled = traceText === null;
  if (traceText === null) return;
  const lines = traceText.split("\n");
  if (traced.text !== traceText) {
    traced.text = traceText;
    walk.putRows(byId("trace-rows"), lines.slice(0, TRACE_SHOWN).map(traceRow), null);
    byId("trace-said").textContent = lines.length > TRACE_SHOWN ? `the first ${TRACE_SHOWN} of ${lines.length - 1} lines` : "";
  }
  markTrace();
}

function traceRow(text) {
  const row = line(text, "");
  const [, number] = /^move (\d+) /.exec(text) ?? [];
  if (number === undefined) return row;
  const at = text.indexOf(" => ") + 1;
  const then = document.createElement("span");
  then.textContent = text.slice(at);
  row.replaceChildren(text.slice(0, at), then);
  Object.assign(row.dataset, { row: "", move: number });
  row.setAttribute("role", "option");
  row.addEventListener("click", () => walk.show(Number(number) + 1));
  return row;
}

// Marks the move that was made last, and the one that comes next, and has both in sight: the box is as high as they are, up to this share of
// the window (less in a low one, for the stacks below), and the first of them is seen whole.
const traceShare = () => innerHeight < 700 ? 0.17 : 0.28;
function markTrace() {
  const box = byId("trace-rows");
  const { run, rounds } = walk.view;
  for (const it of box.querySelectorAll(".present, .next")) it.classList.remove("present", "next");
  if (rounds) return;
  const at = run.first + run.state.at;
  const rows = [at - 1, at].map(number => box.querySelector(`[data-move="${number}"]`));
  rows.forEach((row, place) => row?.classList.add(["present", "next"][place]));
  if (!rows[0] && !rows[1]) return;
  const [top, bottom] = [rows[0] ?? rows[1], rows[1] ?? rows[0]].map(it => it.getBoundingClientRect());
  const most = Math.max(innerHeight * traceShare(), top.height + 12);
  box.style.minHeight = Math.min(bottom.bottom - top.top + 12, most) + "px";
  const own = box.getBoundingClientRect();
  if (top.top < own.top + 1 || bottom.bottom > own.bottom - 1) box.scrollTop += top.top - own.top - 4;
}

const saveTrace = () => walk.saveFile(walk.fileStem() + ".trace", "text/plain", walk.view.traceText);

function joinTabs() {
  // (Behind a press of the pointer on *trace* the arrows are the walk's, and not the tabs'.)
  for (const name of TABS) byId("tab-" + name).addEventListener("click", event => {
    openTab(name);
    if (name === "trace" && event.detail > 0) byId("trace-rows").focus({ preventScroll: true });
  });
  document.querySelector(".tabs").addEventListener("keydown", event => {
    const by = { ArrowRight: 1, ArrowLeft: -1 }[event.key];
    if (by === undefined) return;
    event.preventDefault();
    event.stopPropagation();
    const name = TABS[(TABS.indexOf(tabShown()) + by + TABS.length) % TABS.length];
    openTab(name);
    byId("tab-" + name).focus();
  });
  byId("own-fold").addEventListener("click", () => setFolded(!byId("own").classList.contains("folded")));
  byId("trace-save").addEventListener("click", saveTrace);
  narrow.addEventListener("change", placeMarks);
  walk.view.addressEnd = () => tabShown() === "program" ? "" : "&show=" + tabShown();
  // (The box is as wide as the window lets it be, and so as high as its text is then.)
  new ResizeObserver(([{ contentRect: { width } }]) => {
    if (width > 0 && width !== boxWidth) fitBox();
    boxWidth = width;
  }).observe(byId("own"));
  walk.view.opened = () => {
    placeMarks();
    if (tabShown() === "trace") showTrace();
  };
  walk.view.moved = () => { if (tabShown() === "trace") showTrace(); };
  walk.joinRows(byId("trace-rows"));
}
