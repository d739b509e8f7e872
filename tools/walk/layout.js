// Where the nodes and wires of a net are drawn. A net that `goi` builds is built part by part, in the order of its nodes, and is laid out
// the same way. A part is a rectangle. Its value wire leaves it at the bottom on the left, and right of it leave the variables that are
// free in it, the innermost binder's first. Each form puts its parts side by side and one row of nodes below them.

// How large things are, and how far apart. `text` is the size of a node's letters; `letter` is how wide one is beside a wire, `sign` in a
// node, `mono` in the card. `glyph` is how many times larger a token is, and `entry` how wide a letter of what is kept beside an operator.
const SIZES = {
  nodeHeight: 26, apart: 32, partsApart: 38, framePad: 22, lane: 24, least: 66, most: 104, base: 52, text: 12.5, letter: 5.9, sign: 8.2,
  label: 11, gap: 6, glyph: 1, entry: 6.4, mono: 6.8, line: 14,
};
// For a wall: larger letters want more room. None of the picture is smaller than `text`.
const WALL_SIZES = {
  ...SIZES, apart: 44, partsApart: 48, lane: 34, least: 82, most: 116, base: 62, text: 17, letter: 10.9, sign: 11.5, label: 16, gap: 6,
  glyph: 1.4, entry: 7.6, mono: 10.4, line: 21,
};
// The same where each node has its rule: a word wants more room than a sign, and so there is less between nodes.
const RULE_SIZES = { ...SIZES, rules: true };
const RULE_WALL_SIZES = { ...WALL_SIZES, rules: true, apart: 26, partsApart: 34, framePad: 14 };

const SIGNS = {
  Plus: "+", Minus: "−", Times: "×", Succ: "succ", Pred: "pred", Ifz: "ifz", Lam: "λ", App: "@", Fst: "fst", Snd: "snd", Pair: "( , )",
  Box: "Box !", FixBox: "Fix !",
};
const signOf = node => node.name === "Const" ? node.value : SIGNS[node.name] || node.name;

// What is written in a node: its sign, or where rules are shown its rule.
const nodeText = (node, sizes) => sizes.rules && RULES[node.name] || signOf(node);

// How wide a word is, in the size of its letters; it is narrower than as many signs.
const wordWidth = word => [...word].reduce((sum, letter) => sum + (/[ijl]/.test(letter) ? 0.29 : /[rt]/.test(letter) ? 0.42
  : /[mw]/.test(letter) ? 0.98 : 0.64), 0);

function nodeWidth(node, sizes) {
  const text = nodeText(node, sizes);
  const wide = text.length > 6 ? wordWidth(text) * sizes.text : text.length * sizes.sign;
  const number = (String(node.id).length * 0.8 + 0.8) * sizes.sign;
  return Math.max(node.up.length > 1 || node.down.length > 1 ? 50 : 40, Math.round(wide + number + 14));
}

// How far right of its node's middle a wire leaves it.
function portOffset(node, side, at, sizes) {
  const count = node[side].length;
  const width = nodeWidth(node, sizes);
  return count === 1 ? 0 : width * (at + 0.5) / count - width / 2;
}

// The text beside a wire: its number, or its number and its type as a formula.
function wireText(wire, types) {
  if (!types) return String(wire.id);
  const formula = wireFormula(wire);
  return wire.id + " : " + (formula.length > 26 ? formula.slice(0, 25) + "…" : formula);
}

// The places nearest to the wanted ones that keep their order and these distances: neighbours that would be too near move as one.
function nearestPlaces(wanted, distances) {
  const offsets = [0];
  for (let at = 1; at < wanted.length; at++) offsets[at] = offsets[at - 1] + distances[at - 1];
  const groups = [];
  for (let at = 0; at < wanted.length; at++) {
    groups.push({ place: wanted[at] - offsets[at], count: 1 });
    while (groups.length > 1 && groups[groups.length - 2].place > groups[groups.length - 1].place) {
      const right = groups.pop();
      const left = groups.pop();
      const count = left.count + right.count;
      groups.push({ place: (left.place * left.count + right.place * right.count) / count, count });
    }
  }
  const places = [];
  for (const { place, count } of groups) for (let at = 0; at < count; at++) places.push(place + offsets[places.length]);
  return places;
}

// A part keeps what it is made of in its own measure, and is moved as a whole; everything is added up once at the end.
class Part {
  constructor(left, right, height, inner = []) {
    Object.assign(this, { left, right, height, inner, nodes: [], points: [], variables: [], frame: null, x: 0, y: 0 });
    this.value = { wire: -1, x: 0 };
  }

  move(x, y) {
    this.x += x;
    this.y += y;
    this.left += x;
    this.right += x;
    this.value.x += x;
    for (const variable of this.variables) variable.x += x;
  }
}

class Layout {
  constructor(net, types = false, sizes = SIZES) {
    this.net = net;
    this.types = types;
    this.sizes = sizes;
    this.binders = new Int32Array(net.wires.length).fill(-1);
    const stack = [];
    let pending = [];
    for (const node of net.nodes) {
      if (node.name === "Con" || node.name === "Door" || node.name === "Weak") pending.push(node);
      else { this.build(node, stack, pending); pending = []; }
    }
    if (stack.length !== 1) throw new Error("This is not the net of a program.");
    this.collect(stack[0]);
  }

  // The node at which a variable is bound: the Lam or FixBox to which its wire runs down.
  binderOf(wire) {
    const way = [];
    while (this.binders[wire] < 0) {
      way.push(wire);
      const node = this.net.nodes[this.net.wires[wire].below];
      if (node.name === "Con" || node.name === "Door") wire = node.down[0];
      else this.binders[wire] = node.id;
    }
    for (const passed of way) this.binders[passed] = this.binders[wire];
    return this.binders[wire];
  }

  // How far a node reaches left and right of its middle, with the texts beside its lower wires where these show types.
  reachOf(node) {
    const half = nodeWidth(node, this.sizes) / 2;
    if (!this.types) return [half, half];
    const text = at => wireText(this.net.wires[node.down[at]], true).length * this.sizes.letter + 12;
    const reach = node.down.map((_, at) => Math.abs(portOffset(node, "down", at, this.sizes)) + text(at));
    if (reach.length === 2) return [Math.max(half, reach[0]), Math.max(half, reach[1])];
    return [half, Math.max(half, reach[0] || 0)];
  }

  // The part that a node closes, made of the parts on the stack and the nodes that wait for it.
  build(node, stack, pending) {
    const pop = count => stack.splice(stack.length - count, count);
    switch (node.name) {
      case "Const": case "Der": stack.push(this.leaf(node)); break;
      case "Succ": case "Pred": case "Fst": case "Snd": stack.push(this.oneBelow(node, ...pop(1))); break;
      case "Plus": case "Minus": case "Times": case "App": case "Pair": stack.push(this.twoBelow(node, pop(2), pending)); break;
      case "Ifz": stack.push(this.threeBelow(node, pop(3), pending)); break;
      case "Box": stack.push(this.boxAround(node, ...pop(1), pending)); break;
      case "Lam": case "FixBox": stack.push(this.binderBelow(node, ...pop(1), pending)); break;
      case "Root": stack.push(this.rootBelow(node, ...pop(1))); break;
    }
  }

  leaf(node) {
    const [left, right] = this.reachOf(node);
    const part = new Part(-left, right, this.sizes.nodeHeight);
    part.nodes.push({ node, x: 0, y: this.sizes.nodeHeight / 2 });
    node.down.forEach((wire, at) => part.points.push({ wire, x: portOffset(node, "down", at, this.sizes), y: this.sizes.nodeHeight }));
    part.value = { wire: node.down[0], x: portOffset(node, "down", 0, this.sizes) };
    if (node.name === "Der") part.variables = [{ wire: node.down[1], x: portOffset(node, "down", 1, this.sizes) }];
    return part;
  }

  oneBelow(node, inner) {
    return this.closed(around(inner), node, [inner.value], inner.variables.map(lane));
  }

  twoBelow(node, parts, contractions) {
    return this.closed(this.beside(parts), node, parts.map(part => part.value), this.contracted(variablesOf(parts), contractions));
  }

  // Where both are there, the contractions of the branches have a row above those with the condition.
  threeBelow(node, parts, contractions) {
    const part = this.beside(parts);
    const values = parts.map(inner => inner.value);
    const ofBranches = new Set(variablesOf(parts.slice(1)).map(variable => variable.wire));
    const inBranches = contractions.filter(con => con.up.every(wire => ofBranches.has(wire)));
    const below = contractions.filter(con => !inBranches.includes(con));
    if (inBranches.length === 0 || below.length === 0) {
      return this.closed(part, node, values, this.contracted(variablesOf(parts), contractions));
    }
    const entries = [...values.map(lane), ...this.contracted(variablesOf(parts), inBranches)];
    const middle = entry => entry.above.reduce((sum, end) => sum + end.x, 0) / entry.above.length;
    const ends = this.row(part, entries.sort((one, two) => middle(one) - middle(two)));
    const isValue = end => values.some(value => value.wire === end.wire);
    const placed = values.map(value => ends.find(end => end.wire === value.wire));
    return this.closed(part, node, placed, this.contracted(ends.filter(end => !isValue(end)), below));
  }

  boxAround(node, inner, doors) {
    const part = around(inner);
    const doorRow = inner.variables.map(variable => ({ node: doorOf(doors, variable), above: [variable] }));
    const ends = this.row(part, [{ node, above: [inner.value] }, ...doorRow]);
    return this.framed(this.split(part, ends, node.down[0]), node);
  }

  binderBelow(node, inner, pending) {
    const part = around(inner);
    const unused = pending.find(other => other.name === "Weak");
    const doors = pending.filter(other => other.name === "Door");
    let value = inner.value;
    let bound = inner.variables.find(variable => variable.wire === node.up[1]);
    let free = inner.variables.filter(variable => variable !== bound);
    if (unused) {
      const entry = { node: unused, above: [], wanted: value.x + 60 };
      [value, bound, ...free] = this.row(part, [lane(value), entry, ...free.map(lane)]);
    }
    const entries = free.map(variable => doorOf(doors, variable) ? { node: doorOf(doors, variable), above: [variable] } : lane(variable));
    const ends = this.row(part, [{ node, above: [value, bound] }, ...entries]);
    this.split(part, ends, node.down[0]);
    return node.name === "FixBox" ? this.framed(part, node) : part;
  }

  rootBelow(node, inner) {
    const part = around(inner);
    this.row(part, [{ node, above: [inner.value] }]);
    return part;
  }

  // A node below a part, and its variables beside it.
  closed(part, node, values, entries) {
    return this.split(part, this.row(part, [{ node, above: values }, ...entries]), node.down[0]);
  }

  // Parts side by side, with their bottoms on one line.
  beside(parts) {
    const height = Math.max(...parts.map(part => part.height));
    let right = null;
    for (const part of parts) {
      part.move(right === null ? 0 : right + this.sizes.partsApart - part.left, height - part.height);
      right = part.right;
    }
    return new Part(parts[0].left, right, height, parts);
  }

  // One row of nodes and of wires that pass by, below a part; the ends of their lower wires. An entry is {node, above}, without a node
  // for a wire that passes by; `above` are the ends of wires that come to it.
  row(part, entries) {
    const offset = (entry, at) => entry.node ? portOffset(entry.node, "up", at, this.sizes) : 0;
    const wanted = entries.map(entry => {
      if (entry.wanted !== undefined) return entry.wanted;
      return entry.above.reduce((sum, end, at) => sum + end.x - offset(entry, at), 0) / entry.above.length;
    });
    const reach = entries.map(entry => entry.node ? this.reachOf(entry.node) : [this.sizes.lane / 2, this.sizes.lane / 2]);
    const places = nearestPlaces(wanted, reach.slice(1).map(([left], at) => reach[at][1] + left + this.sizes.apart));
    // The farther a wire runs sideways, the taller is the row.
    const far = Math.max(0, ...entries.flatMap((entry, at) => entry.above.map(end => Math.abs(end.x - places[at]))));
    const top = part.height + Math.min(this.sizes.most, Math.max(this.sizes.least, this.sizes.base + far * 0.17));
    const bottom = top + this.sizes.nodeHeight;
    const ends = [];
    entries.forEach((entry, at) => {
      entry.above.forEach((end, port) => {
        part.points.push({ wire: end.wire, x: end.x, y: part.height }, { wire: end.wire, x: places[at] + offset(entry, port), y: top });
      });
      if (entry.node) {
        part.nodes.push({ node: entry.node, x: places[at], y: (top + bottom) / 2 });
        entry.node.down.forEach((wire, port) => ends.push({ wire, x: places[at] + portOffset(entry.node, "down", port, this.sizes) }));
      } else ends.push({ wire: entry.above[0].wire, x: places[at] });
      part.left = Math.min(part.left, places[at] - reach[at][0]);
      part.right = Math.max(part.right, places[at] + reach[at][1]);
    });
    for (const { wire, x } of ends) part.points.push({ wire, x, y: bottom });
    part.height = bottom;
    return ends;
  }

  // Entries of a row for variables: a contraction where it joins two of them, and else the variable passes by.
  contracted(variables, contractions) {
    const entries = [];
    for (const variable of this.innermostFirst(variables)) {
      const node = contractions.find(con => con.up.includes(variable.wire));
      if (!node) entries.push(lane(variable));
      else if (!entries.some(entry => entry.node === node)) {
        entries.push({ node, above: node.up.map(wire => variables.find(other => other.wire === wire)) });
      }
    }
    return entries;
  }

  innermostFirst(variables) { return variables.slice().sort((one, two) => this.binderOf(one.wire) - this.binderOf(two.wire)); }

  // The ends below a part are its value and its variables.
  split(part, ends, valueWire) {
    part.value = ends.find(end => end.wire === valueWire);
    part.variables = this.innermostFirst(ends.filter(end => end.wire !== valueWire));
    return part;
  }

  // A part with a frame around it. The nodes of its last row are on the frame's edge.
  framed(inner, node) {
    const pad = this.sizes.framePad;
    inner.frame = {
      left: inner.left - pad, right: inner.right + pad, top: -pad, bottom: inner.height - this.sizes.nodeHeight / 2,
      depth: this.net.wires[node.up[0]].depth, fix: node.name === "FixBox",
    };
    inner.move(0, pad);
    const part = new Part(inner.left - pad - 2, inner.right + pad + 2, inner.height + pad, [inner]);
    return Object.assign(part, { value: inner.value, variables: inner.variables });
  }

  // The parts' own measures added up: places of nodes, points of wires from above to below, frames from outside to inside, the bounds.
  collect(whole) {
    this.places = new Array(this.net.nodes.length);
    this.frames = [];
    const points = this.net.wires.map(() => []);
    const todo = [[whole, 0, 0]];
    while (todo.length > 0) {
      const [part, outerX, outerY] = todo.pop();
      const x = outerX + part.x;
      const y = outerY + part.y;
      for (const { node, ...own } of part.nodes) {
        this.places[node.id] = { x: own.x + x, y: own.y + y, width: nodeWidth(node, this.sizes), text: nodeText(node, this.sizes) };
      }
      for (const own of part.points) points[own.wire].push([own.x + x, own.y + y]);
      const frame = part.frame;
      if (frame) this.frames.push({ ...frame, left: frame.left + x, right: frame.right + x, top: frame.top + y, bottom: frame.bottom + y });
      for (const inner of part.inner) todo.push([inner, x, y]);
    }
    this.points = points.map(cleanPoints);
    this.frames.sort((one, two) => one.depth - two.depth);
    const bounds = { left: Infinity, right: -Infinity, top: Infinity, bottom: -Infinity };
    const widen = (left, right, top, bottom) => {
      bounds.left = Math.min(bounds.left, left);
      bounds.right = Math.max(bounds.right, right);
      bounds.top = Math.min(bounds.top, top);
      bounds.bottom = Math.max(bounds.bottom, bottom);
    };
    for (const { x, y, width } of this.places) widen(x - width / 2, x + width / 2, y - 20, y + 20);
    for (const { left, right, top, bottom } of this.frames) widen(left, right, top, bottom);
    this.bounds = bounds;
  }
}

// A variable that passes a row by.
const lane = end => ({ above: [end] });
const variablesOf = parts => parts.flatMap(part => part.variables);
const doorOf = (doors, variable) => doors.find(door => door.up[0] === variable.wire);

// A part of the same size around another, to which rows are added.
const around = inner => new Part(inner.left, inner.right, inner.height, [inner]);

// Points from above to below, without those that say nothing new.
function cleanPoints(points) {
  const kept = [];
  for (const point of points.sort((one, two) => one[1] - two[1])) {
    const last = kept[kept.length - 1];
    if (!last || Math.abs(last[0] - point[0]) + Math.abs(last[1] - point[1]) > 0.5) kept.push(point);
  }
  const straight = at => Math.abs(kept[at - 1][0] - kept[at][0]) < 0.5 && Math.abs(kept[at][0] - kept[at + 1][0]) < 0.5;
  return kept.filter((_, at) => at === 0 || at === kept.length - 1 || !straight(at));
}

// A smooth path through the points of a wire, which all run down.
function wirePath(points) {
  let path = "M" + points[0][0].toFixed(1) + " " + points[0][1].toFixed(1);
  for (let at = 1; at < points.length; at++) {
    const [fromX, fromY] = points[at - 1];
    const [toX, toY] = points[at];
    const middle = ((fromY + toY) / 2).toFixed(1);
    if (Math.abs(fromX - toX) < 0.5) path += "V" + toY.toFixed(1);
    else path += "C" + [fromX.toFixed(1), middle, toX.toFixed(1), middle, toX.toFixed(1), toY.toFixed(1)].join(" ");
  }
  return path;
}

// The point of such a path between two of its points, at a share from 0 to 1.
function curvePoint([fromX, fromY], [toX, toY], share) {
  const bend = 3 * share * share - 2 * share * share * share;
  const fall = 1.5 * share * (1 - share) + share * share * share;
  return [fromX + (toX - fromX) * bend, fromY + (toY - fromY) * fall];
}
