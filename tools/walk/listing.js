// The listing of a net, as `goi net` prints it.

// For each kind of node the names of its wires above and of those below, in the order of the node's numbers.
const PORTS = {
  Const: [[], ["conclusion"]],
  Succ: [["operand"], ["conclusion"]],
  Pred: [["operand"], ["conclusion"]],
  Plus: [["left", "right"], ["conclusion"]],
  Minus: [["left", "right"], ["conclusion"]],
  Times: [["left", "right"], ["conclusion"]],
  Ifz: [["condition", "then", "else"], ["conclusion"]],
  Der: [[], ["value", "variable"]],
  Con: [["left", "right"], ["conclusion"]],
  Weak: [[], ["variable"]],
  Lam: [["body", "variable"], ["conclusion"]],
  App: [["function", "argument"], ["conclusion"]],
  Box: [["inside"], ["outside"]],
  Door: [["inside"], ["outside"]],
  FixBox: [["body", "variable"], ["conclusion"]],
  Root: [["value"], []],
  Pair: [["first", "second"], ["conclusion"]],
  Fst: [["operand"], ["conclusion"]],
  Snd: [["operand"], ["conclusion"]],
};

// {wires, nodes}: a wire knows the node above it and the one below, a node its wires above (`up`) and below (`down`).
function readNet(text) {
  const lines = text.split("\n");
  const refuse = at => {
    throw new Error("Line " + (at + 1) + " of the net can't stand there: " + (lines[at] || "").slice(0, 120));
  };
  const wires = [];
  const nodes = [];
  if (lines[0] !== "net 1") refuse(0);
  for (let at = 1; at < lines.length; at++) {
    if (lines[at] === "end") return wholeNet(wires, nodes);
    const words = lines[at].split(" ");
    if (words[0] === "wire" && Number(words[1]) === wires.length && nodes.length === 0) wires.push(readWire(words));
    else if (words[0] === "node" && Number(words[1]) === nodes.length && readNode(words, nodes.length, wires)) {
      nodes.push(readNode(words, nodes.length, wires));
      joinWires(nodes[nodes.length - 1], wires);
    } else refuse(at);
  }
  throw new Error("The net has no line `end`.");
}

function wholeNet(wires, nodes) {
  const loose = wires.find(wire => wire.above < 0 || wire.below < 0);
  if (loose) throw new Error("Wire " + loose.id + " of the net has an end without a node.");
  return { wires, nodes };
}

function readWire(words) {
  return { id: Number(words[1]), kind: words[2], depth: Number(words[3]), type: words.slice(4).join(" "), above: -1, below: -1 };
}

// A node, or null where the line isn't one.
function readNode(words, id, wires) {
  const name = words[2];
  if (!Object.hasOwn(PORTS, name)) return null;
  const [above, below] = PORTS[name];
  const numbers = words.slice(name === "Const" ? 4 : 3).map(Number);
  if (numbers.length !== above.length + below.length || numbers.some(wire => !wires[wire])) return null;
  return { id, name, value: name === "Const" ? words[3] : null, up: numbers.slice(0, above.length), down: numbers.slice(above.length) };
}

function joinWires(node, wires) {
  for (const wire of node.up) wires[wire].below = node.id;
  for (const wire of node.down) wires[wire].above = node.id;
}
