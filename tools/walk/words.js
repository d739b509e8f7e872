// Signatures in words: the chain of uses in the source for which a mark stands. Each part was made at a node, which says what it is.

// Where something stands: the part around it, in short.
function placeOf(node) {
  const { around } = programText.term.parts.get(node);
  return around ? shortText(around.node.id, 38) : "the program";
}

// A use of a variable, in short: its innermost use and the boxes around it don't count.
function useOf(mark) {
  let at = mark;
  while (at.sign === "l" || at.sign === "r" || at.sign === "<") at = at.sign === "<" ? at.u : at.s;
  return at.sign === "*" && at.node >= 0 && view.net.nodes[at.node].name === "Der" ? at.node : null;
}

// One use among those of its variable: `the first of 2 uses of x`.
const ORDINALS = ["first", "second", "third", "fourth", "fifth", "sixth", "seventh", "eighth"];
function useText(use) {
  const { term, names } = programText;
  const { binder } = term.parts.get(use);
  const uses = [...term.uses[binder]].sort((one, two) => one - two);
  const place = uses.indexOf(use);
  const which = uses.length === 1 ? "the use" : ORDINALS[place] ? `the ${ORDINALS[place]} use` : `use ${place + 1}`;
  return `${which} of ${names.get(binder)}`;
}

// Which side of a function or of a pair is meant: the node that made the mark knows.
const OF_PAIRS = ["Pair", "Fst", "Snd"];
function sideWords({ sign, node }) {
  if (node < 0) return "";
  if (OF_PAIRS.includes(view.net.nodes[node].name)) return sign === "L" ? "the first part of the pair" : "the second part of the pair";
  return sign === "L" ? "the function's argument" : "the function's result";
}

// What the top of a box stack, or a mark on the work stack, stands for, in one line.
function shortWords(mark, boxes = null) {
  if (mark.sign === "R" || mark.sign === "L") return sideWords(mark);
  if (mark.sign === "~") return "";
  const box = boxes && boxes.box >= 0 ? view.net.nodes[boxes.box] : null;
  if (box && box.name === "FixBox") return callName(boxes);
  const use = useOf(mark);
  const forUse = use === null ? "" : useText(use);
  if (!box) return forUse;
  return `argument ${shortText(boxes.box, 18)}` + (forUse ? `, for ${forUse}` : "");
}

// A stack in words, the top first.
const STACK_HEARD = 9;
function stackWords(stack, isBoxes) {
  const words = marksIn(stack, STACK_HEARD).map(at => shortWords(at.mark, isBoxes ? at : null) || spelled(at.mark));
  return words.join(", ") || "empty";
}

// The chain of a mark: lines {code, text, node, depth}, the outermost first. A mark can stand for more uses than can be told. One that has
// been told with several lines is told as that one where it comes once more.
const MOST_LINES = 100;
let linesLeft = 0;
const toldLines = new Map();
const andSoOn = depth => [{ code: "", depth, node: null, text: "and so on" }];
function chainOfMark(mark, boxes) {
  linesLeft = MOST_LINES;
  toldLines.clear();
  return chainOfPart(mark, boxes, 0).slice(0, MOST_LINES + 20);
}

function chainOfPart(mark, boxes, depth) {
  const code = spelled(mark);
  if (!boxes || boxes.box < 0) return chainOfUse(mark, depth);
  if (view.net.nodes[boxes.box].name === "FixBox") return chainOfCall(mark, boxes, depth, code);
  const copy = { code, depth, node: boxes.box, text: `the copy of the argument ${shortText(boxes.box)} for` };
  return headed(copy, chainOfUse(mark, depth + 1));
}

// A line with the chain that belongs to it: in the same line where that is one line.
function headed(line, chain) {
  if (chain.length > 1) return [line, ...chain];
  return [{ ...line, text: `${line.text} ${chain[0].text}` }];
}

function chainOfCall(mark, boxes, depth, code) {
  linesLeft--;
  const name = (boxes.rest !== undefined && callName(boxes)) || `a call of ${programText.names.get(boxes.box)}`;
  if (mark.sign !== "y") return [{ code, depth, node: boxes.box, text: `${name}: from outside` }];
  const { marks, numbers } = view.questions;
  const outer = boxes.rest === undefined ? { box: boxes.box } : marks.push(mark.u, boxes.rest, boxes.box);
  const inside = numbers.has(outer) ? callName(outer) : "a call of it";
  const made = headed({ code, depth, node: boxes.box, text: `${name}: made inside ${inside}, by` }, chainOfUse(mark.s, depth + 1));
  return [...made, ...(linesLeft > 0 ? chainOfPart(mark.u, outer, depth) : andSoOn(depth))];
}

// l and r say left and right of two uses, * is a use, and <s,u> the use u from inside the box that is open at s.
function chainOfUse(mark, depth) {
  if (linesLeft-- <= 0) return andSoOn(depth);
  const { net } = view;
  const code = spelled(mark);
  switch (mark.sign) {
    case "l": case "r": {
      const sides = [];
      let at = mark;
      for (; at.sign === "l" || at.sign === "r"; at = at.s) sides.push(at.sign === "l" ? "left" : "right");
      const [first, ...rest] = chainOfUse(at, depth);
      return [{ ...first, code, text: `${first.text} (${sides.join(", ")})` }, ...rest];
    }
    case "*": {
      if (mark.node < 0 || net.nodes[mark.node].name !== "Der") return [{ code, depth, node: null, text: "a use" }];
      return [{ code, depth, node: mark.node, text: `${useText(mark.node)}, in ${placeOf(mark.node)}` }];
    }
    case "<": {
      if (toldLines.has(mark)) return [{ ...toldLines.get(mark), code, depth }];
      const box = mark.node >= 0 ? view.questions.term.boxOf.get(mark.node) : null;
      if (box === null) return [{ code, depth, node: null, text: "a use inside a box:" }, ...chainOfUse(mark.u, depth + 1)];
      const [first, ...rest] = chainOfUse(mark.u, depth);
      const isCall = net.nodes[box].name === "FixBox";
      const copy = spelled(mark.s);
      const around = isCall ? chainOfCall(mark.s, { box }, depth, copy)
        : headed({ code: copy, depth, node: box, text: `inside the argument ${shortText(box)}, for` }, chainOfUse(mark.s, depth + 1));
      toldLines.set(mark, { ...first, text: first.text.replace(/(, as above)?$/, ", as above") });
      return [{ ...first, code }, ...rest, ...around];
    }
    case "y": return [{ code, depth, node: null, text: "a call of a recursive term" }];
    default: return [{ code, depth, node: null, text: "what the trace has cut" }];
  }
}

// Shows a mark's chain beside the net, and marks its uses in the program.
function tellChain(mark, boxes) {
  const chain = chainOfMark(mark, boxes);
  const lines = chain.map(({ code, depth, node, text }) => {
    const line = element("div", { class: "link" }, element("span", { class: "code", title: code }, code), element("span", {}, text));
    line.style.marginLeft = Math.min(depth, 6) * 10 + "px";
    if (node !== null) line.addEventListener("pointerenter", () => markSpans("meant", [node]));
    return line;
  });
  const close = element("button", { title: "put the chain away (Esc)" }, "close");
  close.addEventListener("click", forgetChain);
  const whole = element("div", { class: "code whole" }, spelled(mark));
  byId("chain").replaceChildren(element("h2", {}, "This mark in words ", close), whole, ...lines);
  byId("chain").hidden = false;
  const nodes = chain.map(({ node }) => node).filter(node => node !== null && view.net.nodes[node].name !== "FixBox");
  markSpans("meant", nodes);
  byId("chain").scrollTop = 0;
  byId("announce").textContent = chain.map(({ text }) => text).join("; ");
  uncover();
}

function forgetChain() {
  byId("chain").hidden = true;
  markSpans("meant", []);
}
