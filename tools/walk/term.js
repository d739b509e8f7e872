// The program's text, read off its net: the nodes of a net that `goi` builds are in the order of the program's parts. It is shown, and
// nothing depends on it. Names are taken from the program's own text, whose binders are in the same order.

// {root, binders, uses, parts, boxOf}: the tree of the program's parts, the parts that bind a variable, for each node below a variable its
// uses, the part of each node, and the box of each door.
function readTerm(net) {
  const stack = [];
  const boxOf = new Map();
  let doors = [];
  const take = count => stack.splice(stack.length - count, count);
  for (const node of net.nodes) {
    if (node.name === "Door") doors.push(node.id);
    if (node.name === "Box" || node.name === "FixBox") {
      for (const door of doors) boxOf.set(door, node.id);
      doors = [];
    }
    switch (node.name) {
      case "Const": case "Der":
        stack.push({ node, parts: [] });
        break;
      case "Succ": case "Pred": case "Fst": case "Snd": case "Lam": case "FixBox":
        stack.push({ node, parts: take(1) });
        break;
      case "Plus": case "Minus": case "Times": case "App": case "Pair":
        stack.push({ node, parts: take(2) });
        break;
      case "Ifz":
        stack.push({ node, parts: take(3) });
        break;
      case "Box":
        stack[stack.length - 1].box = node.id;
        break;
    }
  }
  const root = stack[0];
  const uses = net.nodes.map(() => []);
  const binders = [];
  const parts = new Map();
  const todo = [root];
  while (todo.length > 0) {
    const part = todo.pop();
    parts.set(part.node.id, part);
    if (part.box !== undefined) parts.set(part.box, part);
    for (const inner of part.parts) inner.around = part;
    if (part.node.name === "Lam" || part.node.name === "FixBox") binders.push(part.node.id);
    if (part.node.name === "Der") part.binder = followVariable(net, part.node, uses);
    todo.push(...part.parts.slice().reverse());
  }
  return { root, binders, uses, parts, boxOf };
}

// From a use of a variable down to its binder; each node on the way notes the use.
function followVariable(net, use, uses) {
  let wire = use.down[1];
  for (;;) {
    const node = net.nodes[net.wires[wire].below];
    uses[node.id].push(use.id);
    if (node.name !== "Con" && node.name !== "Door") return node.id;
    wire = node.down[0];
  }
}

// The names behind `fun` and `fix` in the program's text, if there are so many.
function namesIn(text, count) {
  const names = [];
  const word = /#[^\n]*|[0-9]+|[\p{XID_Start}_][\p{XID_Continue}]*|./gsu;
  let before = "";
  for (const [found] of text.matchAll(word)) {
    if (/^[\s#]/.test(found)) continue;
    if (before === "fun" || before === "fix") names.push(found);
    before = found;
  }
  return names.length === count ? names : null;
}

// How firmly each form binds: the grammar's levels.
const LEVELS = {
  Const: 9, Der: 9, Pair: 9, Succ: 8, Pred: 8, Fst: 8, Snd: 8, App: 7, Times: 5, Plus: 4, Minus: 4, Ifz: 1, Lam: 1, FixBox: 1,
};

// The name of each binder.
function namesOfBinders(net, program, binders) {
  const given = namesIn(program, binders.length);
  return new Map(binders.map((id, at) => [id, given ? given[at] : (net.nodes[id].name === "FixBox" ? "f" : "x") + at]));
}

// The term as it is printed: nested pieces {node, box, pieces}, where a piece is a text or such a piece again.
function termPieces(net, root, names) {
  const show = (part, least) => {
    const { node, parts } = part;
    const inside = at => level => show(parts[at], level);
    let pieces = piecesOf(node, parts.map((_, at) => inside(at)), names.get(part.binder), names.get(node.id), net);
    if (LEVELS[node.name] < least) pieces = ["(", ...pieces, ")"];
    return { node: node.id, box: part.box, pieces };
  };
  return show(root, 0);
}

function piecesOf(node, [first, second, third], used, bound, net) {
  switch (node.name) {
    case "Const": return [node.value];
    case "Der": return [used];
    case "Succ": case "Pred": case "Fst": case "Snd": return [node.name.toLowerCase() + " ", first(8)];
    case "App": return [first(7), " ", second(8)];
    case "Times": return [first(5), " * ", second(6)];
    case "Plus": return [first(4), " + ", second(5)];
    case "Minus": return [first(4), " - ", second(5)];
    case "Pair": return ["(", first(1), ", ", second(1), ")"];
    case "Ifz": return ["ifz ", first(1), " then ", second(1), " else ", third(1)];
    default: return [(node.name === "Lam" ? "fun " : "fix ") + bound + ":" + net.wires[node.up[1]].type + ". ", first(1)];
  }
}
