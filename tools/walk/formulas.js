// Types and nodes as linear logic has them, in the notation of docs/NET.md: `A -> B` is `!A ⊸ B`, a pair is `&`, and the uses of a variable
// are the dual of its argument.

// The rule of each node that isn't a constant of the language.
const RULES = {
  Der: "dereliction", Con: "contraction", Weak: "weakening", Box: "promotion", Door: "door", FixBox: "fix", Lam: "⅋", App: "⊗, cut",
  Pair: "&", Fst: "⊕, cut", Snd: "⊕, cut", Root: "conclusion",
};

// The formula of a type that a listing has.
function formulaOf(type) {
  const words = type.match(/nat|->|[*()]/g);
  let at = 0;
  // A part is {text, sign}: the sign that joins it, or none.
  const isNext = word => words[at] === word && ++at > 0;
  const around = ({ text, sign }, ...signs) => signs.includes(sign) ? `(${text})` : text;
  const atom = () => {
    if (!isNext("(")) { at++; return { text: "nat" }; }
    const inner = arrow();
    at++;
    return inner;
  };
  const pair = () => {
    const left = atom();
    return isNext("*") ? { text: `${around(left, "⊸", "&")} & ${around(pair(), "⊸")}`, sign: "&" } : left;
  };
  const arrow = () => {
    const left = pair();
    return isNext("->") ? { text: `!${around(left, "⊸", "&")} ⊸ ${around(arrow(), "")}`, sign: "⊸" } : left;
  };
  return arrow().text;
}

// The formula of a wire.
function wireFormula({ kind, type }) {
  const formula = formulaOf(type);
  if (kind === "value") return formula;
  const inner = formula.includes(" ") ? `(${formula})` : formula;
  return kind === "bang" ? "!" + inner : `?${inner}⊥`;
}

// A wire in words: from where to where, and what it is.
const WIRE_KINDS = { value: "a value", bang: "an argument in its box", var: "a variable" };
function wireWords({ id, kind, type, above, below }, net) {
  const [from, to] = [above, below].map(node => `${net.nodes[node].name} ${node}`);
  return `wire ${id}, from ${from} down to ${to}: ${WIRE_KINDS[kind]} of type ${type}`;
}
