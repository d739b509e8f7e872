// A program's translation by value, as a text: its net is the one that a run by value walks. The machine has its own translation, and makes
// the run with that one; the text made here only gives the net to look at, and a trace that didn't fit the net would be refused with its
// line. docs/BY_VALUE.md has the table.

// A type is "nat", or an arrow {left, right}. A program with a product has no translation, and none comes here.
function readType(text) {
  const signs = text.match(/->|[()]|nat/g);
  const read = () => {
    let left = signs.shift();
    if (left === "(") {
      left = read();
      signs.shift();
    }
    if (signs[0] !== "->") return left;
    signs.shift();
    return { left, right: read() };
  };
  return read();
}

function typeText(type) {
  if (type === "nat") return type;
  const left = typeText(type.left);
  return (type.left === "nat" ? left : `(${left})`) + " -> " + typeText(type.right);
}

// A', and the type of what hands on a value of A': a number stays, and a function takes its argument and what is to be done with its
// result.
const typeOfValue = type => type === "nat" ? type : { left: typeOfValue(type.left), right: typeOfWaiting(type.right) };
const typeOfWaiting = type => ({ left: { left: typeOfValue(type), right: "nat" }, right: "nat" });

// How close a phrase holds together.
const OPEN = 0;
const OPERATION = 1;
const APPLICATION = 2;
const ATOM = 3;
const inside = (phrase, least) => phrase.level < least ? `(${phrase.text})` : phrase.text;
const named = name => ({ level: ATOM, text: name });
const apply = (one, two) => ({ level: APPLICATION, text: inside(one, APPLICATION) + " " + inside(two, ATOM) });
const bind = (word, name, type, body) => ({ level: OPEN, text: `${word} ${name}:${typeText(type)}. ${body.text}` });

const SIGNS = { Plus: "+", Minus: "-", Times: "*" };

// The translation of the program with this text and this net.
function translationOf(text, net) {
  const { root, binders } = walk.readTerm(net);
  const own = walk.namesIn(text, binders.length);
  const nameOf = new Map(binders.map((node, at) => [node, own[at]]));
  // Five new names serve again and again, since no line of the table uses one of them across another binder of it.
  const fresh = name => {
    let found = name;
    for (let count = 1; own.includes(found); count++) found = name + count;
    return found;
  };
  const [k, m, n, g, x] = ["k", "m", "n", "g", "x"].map(name => named(fresh(name)));

  const typeOf = part => readType(net.wires[part.node.down[0]].type);
  const waiting = (part, body) => bind("fun", k.text, { left: typeOfValue(typeOf(part)), right: "nat" }, body);
  const then = (part, name, body) => apply(translated(part), bind("fun", name.text, typeOfValue(typeOf(part)), body));

  const valueOf = part => {
    const bound = typeOfValue(readType(net.wires[part.node.up[1]].type));
    const [body] = part.parts;
    if (part.node.name === "FixBox") return bind("fix", nameOf.get(part.node.id), bound, valueOf(body));
    return bind("fun", nameOf.get(part.node.id), bound, translated(body));
  };

  const translated = part => {
    const [first, second, third] = part.parts;
    const { name, value } = part.node;
    switch (name) {
      case "Const": return waiting(part, apply(k, named(value)));
      case "Der": return waiting(part, apply(k, named(nameOf.get(part.binder))));
      case "Lam": case "FixBox": return waiting(part, apply(k, valueOf(part)));
      case "Succ": case "Pred":
        return waiting(part, then(first, m, apply(k, { level: OPERATION, text: `${name.toLowerCase()} ${m.text}` })));
      case "Ifz": {
        const [yes, no] = [apply(translated(second), k), apply(translated(third), k)];
        return waiting(part, then(first, m, { level: OPEN, text: `ifz ${m.text} then ${yes.text} else ${no.text}` }));
      }
      case "App":
        return waiting(part, then(first, g, then(second, x, apply(apply(g, x), k))));
      default:
        return waiting(part, then(first, m, then(second, n, apply(k, { level: OPERATION, text: `${m.text} ${SIGNS[name]} ${n.text}` }))));
    }
  };
  return apply(translated(root), bind("fun", "v", "nat", named("v"))).text + "\n";
}
