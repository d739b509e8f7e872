// Opening what was printed: texts inside the page, or files that are chosen or dropped. Files are told by how they begin.

// {name, file, program, net, trace}, and steps where they are there. Nothing that is open changes where these can't be shown.
function openWalk({ name, file, program, net: netText, trace: traceText, steps: stepsText }) {
  const net = readNet(netText);
  const layout = new Layout(net, view.types, sizesNow());
  const term = readTerm(net);
  const questions = new Questions(net, term, readTrace(traceText));
  const { run } = questions;
  if (playing.on || playing.motion) pause();
  Object.assign(view, { name, file: file || name, program, netText, traceText, stepsText, net, layout, run, questions });
  Object.assign(view, { onlyWire: null, address: "" });
  camera.moved = false;
  forgetMap();
  forgetStrip();
  document.title = name + " · a walk of goi";
  byId("name").textContent = name;
  byId("nothing").hidden = true;
  document.body.classList.remove("closed");
  drawProgram(term);
  Object.assign(view, { alone: { run, questions }, together: null, rounds: null, told: null });
  tellWay();
  const { first, more } = summaryParts();
  byId("summary").replaceChildren(first, element("span", { class: "more" }, more));
  forgetChain();
  drawNet();
  tellWires();
  sizeLog();
  if (stepsText) putSteps(program, stepsText); else drawSteps();
  show(0, true);
  showHome();
  view.opened();
}

// The net by ear: each wire from where to where. (Of a very large net nobody hears all.)
const WIRES_HEARD = 1000;
function tellWires() {
  const { net } = view;
  byId("wires-heard").replaceChildren(...net.wires.slice(0, WIRES_HEARD).map(wire => element("li", {}, wireWords(wire, net))));
}

// (In a narrow window there is room for the first part alone, in one line.)
function summaryParts() {
  const { run, net } = view;
  const { value, moves, lines } = run.trace;
  const many = (count, what) => count + " " + what + (count === 1 ? "" : "s");
  let first = value === null ? `no value within ${moves} moves` : `value ${value}, ${many(moves, "move")}`;
  const parts = [""];
  if (!run.whole && lines.length > 0) parts.push(`here moves ${run.first} to ${run.first + run.length - 1}`);
  parts.push(many(net.nodes.length, "node"), many(run.tickets(), "ticket"));
  if (whyNoRounds(run) === null) {
    const { rounds, most } = view.questions.span;
    if (most > 1) {
      first += ` in ${many(rounds, "round")}`;
      parts[0] = ` of at most ${most}`;
    }
  }
  if (run.workers > 1) parts.push(many(run.workers, "worker"));
  return { first, more: parts.join(" · ") };
}

// A trace alone is shown on the net that is open.
async function openFiles(files) {
  try {
    const found = { name: "", program: "", net: "", trace: "" };
    for (const file of files) {
      const text = await file.text();
      if (text.startsWith("net 1\n")) found.net = text;
      else if (/^trace 1$/m.test(text)) found.trace = text;
      else Object.assign(found, { program: text, name: file.name });
      if (!found.name) found.name = file.name.replace(/\.(net|trace)$/, "");
    }
    if (found.program && !found.net && !found.trace && view.runProgram) { view.runProgram(found.program, found.name); return; }
    if (!found.trace) throw new Error("No trace is among these files.");
    if (!found.net && view.net) Object.assign(found, { net: view.netText, program: view.program, name: view.name, file: view.file });
    if (!found.net) throw new Error("No net is among these files.");
    openWalk(found);
  } catch (error) {
    tellTrouble(error.message);
  }
}

function tellTrouble(text) {
  byId("nothing").hidden = false;
  document.body.classList.toggle("closed", view.run === null);
  byId("back-to-walk").hidden = view.run === null;
  byId("trouble").textContent = text;
}
