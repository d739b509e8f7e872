// The printed sheet: light, with the whole net where the window doesn't show a part of a large one.

let themeBefore = null;

function beginSheet() {
  if (!view.run) return;
  endMotion();
  themeBefore = document.documentElement.dataset.theme || "";
  document.documentElement.dataset.theme = "light";
  const moves = `${movesMade()} of ${view.run.trace.moves} moves`;
  byId("when").textContent = view.rounds ? `after ${wayMade()} of ${wayLength()} rounds` : `after ${moves}`;
  const whole = drawing.range === null;
  const { left, right, top, bottom } = whole ? { ...view.layout.bounds, ...reach(20) } : shownRange();
  byId("picture").setAttribute("viewBox", [left, top - 20, right - left, bottom - top + 40].map(Math.round).join(" "));
  drawing.root.removeAttribute("transform");
}

// The net alone, on a whole page: a coin has room on a node of a small one.
function printNet() {
  document.body.classList.add("net-alone");
  print();
}

function endSheet() {
  document.body.classList.remove("net-alone");
  if (!view.run || themeBefore === null) return;
  if (themeBefore === "") delete document.documentElement.dataset.theme; else document.documentElement.dataset.theme = themeBefore;
  themeBefore = null;
  byId("picture").removeAttribute("viewBox");
  applyCamera();
}
