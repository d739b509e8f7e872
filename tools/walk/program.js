// The program's text, with the part marked to which the node of the last move belongs. It is the author's own, with its lines, parentheses
// and comments, where that reads as the net's term, and else the term as it is printed.

const programText = {
  // What was read off the net, the names of its binders, and whether the text is the author's own.
  term: null, names: new Map(), own: false, length: 0, whole: null,
  // The pieces and the elements of nodes and boxes; the elements that are marked, by kind of mark.
  pieces: new Map(), spans: new Map(), marked: { at: [], meant: [] },
};

function drawProgram(term) {
  const names = namesOfBinders(view.net, view.program, term.binders);
  const own = ownPieces(view.program, term.root);
  Object.assign(programText, { term, names, own: own !== null, pieces: new Map(), spans: new Map(), marked: { at: [], meant: [] } });
  const whole = drawPiece(own || termPieces(view.net, term.root, names));
  byId("program").replaceChildren(...remarksOff(whole, "firstChild"), whole, ...remarksOff(whole, "lastChild").reverse());
  programText.whole = whole;
  programText.length = byId("program").textContent.length;
  byId("source").textContent = view.program;
  byId("source-box").hidden = own !== null || view.program === "";
}

// (Without recursion: a program can be nested more deeply than functions can.)
function drawPiece(whole) {
  const begun = piece => {
    const span = element("span", piece.box === undefined ? {} : { class: "argument" });
    for (const id of [piece.node, piece.box]) {
      if (id === null || id === undefined) continue;
      programText.pieces.set(id, piece);
      programText.spans.set(id, span);
    }
    return { piece, span };
  };
  const first = begun(whole);
  const todo = [first];
  while (todo.length > 0) {
    const { piece, span } = todo.pop();
    for (const inner of piece.pieces) {
      if (typeof inner === "string") { span.append(...drawText(inner)); continue; }
      const next = begun(inner);
      span.append(next.span);
      todo.push(next);
    }
  }
  return first.span;
}

// The comments and the room at one end of the program, taken out of its element, which is what is marked.
function remarksOff(whole, end) {
  const taken = [];
  for (let it = whole[end]; it && (it.nodeType === Node.TEXT_NODE || it.matches(".remark")); it = whole[end]) {
    if (it.nodeType === Node.TEXT_NODE && it.data.trim() !== "") {
      const kept = end === "firstChild" ? it.data.trimStart() : it.data.trimEnd();
      taken.push(end === "firstChild" ? it.data.slice(0, it.data.length - kept.length) : it.data.slice(kept.length));
      it.data = kept;
      break;
    }
    it.remove();
    taken.push(it);
  }
  return taken;
}

// A text with its comments set apart: no other text has the sign.
function drawText(text) {
  return text.split(/(#[^\n]*)/).filter(it => it !== "")
    .map(it => it.startsWith("#") ? element("span", { class: "remark" }, it) : it);
}

// The beginning of the text of a node or a box, in one line without comments: of a long text all that anybody shows.
const TEXT_BEGINS = 400;
function textOf(id) {
  const todo = [programText.pieces.get(id)];
  let text = "";
  while (todo.length > 0 && text.length < TEXT_BEGINS) {
    const piece = todo.pop();
    if (typeof piece === "string") text += piece.replaceAll(/#[^\n]*/g, ""); else todo.push(...[...piece.pieces].reverse());
  }
  return text.replaceAll(/\s+/g, " ").trim();
}

// A contraction or a door belongs to the uses of its variable, the root to the whole.
function spansOf(node) {
  const { spans, term } = programText;
  const { name } = view.net.nodes[node];
  if (name === "Root") return [programText.whole];
  const owners = name === "Con" || name === "Door" ? term.uses[node] : [node];
  return owners.map(owner => spans.get(owner)).filter(span => span);
}

// Marks what belongs to some nodes. What is nearly the whole program is outlined, so that the mark says where and not that.
function markSpans(kind, nodes) {
  const { marked } = programText;
  for (const span of marked[kind]) span.classList.remove(kind, "broad");
  marked[kind] = nodes.flatMap(spansOf);
  for (const span of marked[kind]) {
    span.classList.add(kind);
    if (span.textContent.length > programText.length * 0.6) span.classList.add("broad");
  }
}

function markProgram(node) {
  markSpans("at", node === null ? [] : [node]);
  if (programText.marked.at.length > 0) showInside(byId("program"), programText.marked.at[0]);
}

// The term of a net as `goi check --term` prints it; without the program's own text its variables have names of the page's.
function termText(net, program = "") {
  const { root, binders } = readTerm(net);
  const flat = piece => piece.pieces.map(inner => typeof inner === "string" ? inner : flat(inner)).join("");
  return flat(termPieces(net, root, namesOfBinders(net, program, binders)));
}

// The program's text is shown on the wall there, and else at home: in its panel, or in a box that a page has for it.
function setProgramHome(home) {
  view.programHome = home;
  byId("program").tabIndex = home ? -1 : 0;
  if (!view.wall) placeProgram();
}

function placeProgram() {
  const place = view.wall ? byId("wall-program") : view.programHome || byId("desk-program");
  if (!place.contains(byId("program"))) place.append(byId("program"));
}
