// The stacks of each token along a run, whole, with the node at which each of their marks was made. A line of the trace cuts long stacks;
// but its node and ports say which row was applied, and so what it took and put. Equal marks are one object, and so are equal stacks.

class Marks {
  constructor(net, boxOf) {
    this.net = net;
    this.boxOf = boxOf;
    this.marks = new Map();
    this.stacks = new Map();
    this.count = 1;
    this.unknown = this.mark("~", -1);
  }

  // One object for each key of a map.
  one(map, key, make) {
    let found = map.get(key);
    if (!found) {
      found = make();
      found.id = this.count++;
      map.set(key, found);
    }
    return found;
  }

  // A mark: its sign (R, L, *, l, r, <, y; ~ for what isn't known), the node that made it, and what it is made of: s, and u for < and y.
  mark(sign, node, s = null, u = null) {
    const maker = sign + node;
    if (!this.marks.has(maker)) this.marks.set(maker, new Map());
    return this.one(this.marks.get(maker), (s ? s.id : 0) * Marks.WIDE + (u ? u.id : 0), () => ({ sign, node, s, u }));
  }

  // A stack: its top, the rest (null is the empty stack), how many it has, and for the box stack the box that the top opens.
  push(mark, rest, box = -1) {
    if (!this.stacks.has(box)) this.stacks.set(box, new Map());
    const key = mark.id * Marks.WIDE + (rest ? rest.id : 0);
    return this.one(this.stacks.get(box), key, () => ({ mark, rest, box, size: rest ? rest.size + 1 : 1 }));
  }

  // The two stacks behind a move.
  after(move, { work, boxes }) {
    const top = work ? work.mark : this.unknown;
    const below = work ? work.rest : null;
    const put = (sign, s) => ({ work: this.push(this.mark(sign, move.node, s), s ? below : work), boxes });
    const taken = () => ({ work: below, boxes });
    // Without its first letter, which is l or r.
    const inner = () => ({ work: this.push(top.s || this.unknown, below), boxes });
    switch (move.name + " " + move.in + " " + move.out) {
      case "Lam conclusion body": case "Lam conclusion variable": case "App function conclusion": case "App function argument":
      case "Pair conclusion first": case "Pair conclusion second": case "Fst operand conclusion": case "Snd operand conclusion":
      case "Der variable value": return taken();
      case "Lam body conclusion": case "App conclusion function": case "Pair second conclusion": case "Snd conclusion operand":
        return put("R");
      case "Lam variable conclusion": case "App argument function": case "Pair first conclusion": case "Fst conclusion operand":
        return put("L");
      case "Der value variable": return put("*");
      case "Con left conclusion": return put("l", top);
      case "Con right conclusion": return put("r", top);
      case "Con conclusion left": case "Con conclusion right": return inner();
      case "Box outside inside": return { work: below, boxes: this.push(top, boxes, move.node) };
      case "FixBox conclusion body": return { work, boxes: this.push(this.mark("*", move.node), boxes, move.node) };
      case "Door outside inside": return {
        work: this.push(top.u || this.unknown, below), boxes: this.push(top.s || this.unknown, boxes, this.boxOf.get(move.node)),
      };
      default: return boxes ? this.outOf(move, work, boxes) : { work, boxes };
    }
  }

  // Rows that take the top of the box stack.
  outOf(move, work, boxes) {
    const [top, below] = [work ? work.mark : this.unknown, work ? work.rest : null];
    switch (move.name + " " + move.in + " " + move.out) {
      case "Box inside outside": return { work: this.push(boxes.mark, work), boxes: boxes.rest };
      case "Door inside outside": return { work: this.push(this.mark("<", move.node, boxes.mark, top), below), boxes: boxes.rest };
      case "FixBox body conclusion": return { work, boxes: boxes.rest };
      case "FixBox variable body":
        return { work: below, boxes: this.push(this.mark("y", move.node, top, boxes.mark), boxes.rest, move.node) };
      case "FixBox body variable": return {
        work: this.push(boxes.mark.s || this.unknown, work), boxes: this.push(boxes.mark.u || this.unknown, boxes.rest, move.node),
      };
      // Numbers leave both stacks as they are.
      default: return { work, boxes };
    }
  }

  // A stack of a part of a run, as the trace has it: where its marks were made isn't told.
  given(text) {
    return stackParts(text).reverse().filter(part => !part.startsWith("+"))
      .reduce((rest, part) => this.push(/^[LR]$/.test(part) ? this.mark(part, -1) : this.signature(part), rest), null);
  }

  signature(text) {
    if (/^[lr]/.test(text)) return this.mark(text[0], -1, this.signature(text.slice(1)));
    const pair = /^(?:<(.*)>|y\((.*)\))$/.exec(text);
    if (!pair) return text === "*" ? this.mark("*", -1) : this.unknown;
    const [one, two] = halves(pair[1] ?? pair[2]);
    return text[0] === "<" ? this.mark("<", -1, this.signature(one), this.signature(two))
      : this.mark("y", -1, this.signature(two), this.signature(one));
  }
}

// Two numbers below it are one number.
Marks.WIDE = 2 ** 26;

// Both sides of the comma that is in no bracket.
function halves(text) {
  let depth = 0;
  for (let at = 0; at < text.length; at++) {
    if ("(<".includes(text[at])) depth++;
    else if (")>".includes(text[at])) depth--;
    else if (text[at] === "," && depth === 0) return [text.slice(0, at), text.slice(at + 1)];
  }
  return [text, "~"];
}

// A mark as a trace spells it, which has no part that is deeper than 12 but for *.
const MOST_DEEP = 12;
function spelled(mark, deep = 1, most = MOST_DEEP) {
  if (deep > most && mark.sign !== "*") return "~";
  const inner = it => spelled(it, deep + 1, most);
  switch (mark.sign) {
    case "l": case "r": return mark.sign + inner(mark.s);
    case "<": return `<${inner(mark.s)},${inner(mark.u)}>`;
    case "y": return `y(${inner(mark.u)},${inner(mark.s)})`;
    default: return mark.sign;
  }
}

// The marks of a stack, top first.
function marksIn(stack, most = Infinity) {
  const marks = [];
  for (let at = stack; at && marks.length < most; at = at.rest) marks.push(at);
  return marks;
}
