// The program's own text, read: the same tree as that of the net, with the place of each part in the text. The machine reads the program;
// this reads it once more, so that its parts can be marked where the author wrote them, and nothing else depends on it.

const KEYWORDS = new Set(["fun", "fix", "ifz", "then", "else", "succ", "pred", "fst", "snd", "nat"]);
const SUMS = { "+": "Plus", "-": "Minus" };
const TAKE_ONE = { succ: "Succ", pred: "Pred", fst: "Fst", snd: "Snd" };
const BLANK = /(?:[ \t\r\n]+|#[^\n]*)*/uy;
const SOME_TOKEN = /[0-9]+|[\p{XID_Start}_][\p{XID_Continue}]*|->|[():.,+*-]/uy;

// {word, from, to} for each token; throws where the text has something else.
function tokensOf(text) {
  const tokens = [];
  for (let at = 0; ;) {
    BLANK.lastIndex = at;
    BLANK.test(text);
    at = BLANK.lastIndex;
    if (at >= text.length) return tokens;
    SOME_TOKEN.lastIndex = at;
    const found = SOME_TOKEN.exec(text);
    if (!found) throw new Error("no token at " + at);
    tokens.push({ word: found[0], from: at, to: at + found[0].length });
    at += found[0].length;
  }
}

// A part of the text {name, parts, from, to, start, end}: `start` and `end` are its place with the parentheses around it.
class Reader {
  constructor(text) {
    this.tokens = tokensOf(text);
    this.at = 0;
    this.bound = [];
  }

  get word() { return this.at < this.tokens.length ? this.tokens[this.at].word : ""; }

  take(word) {
    const token = this.tokens[this.at];
    if (!token || (word !== undefined && token.word !== word)) throw new Error("the text isn't a program");
    this.at++;
    return token;
  }

  made(name, from, to, parts, more) { return { name, parts, from, to, start: from, end: to, ...more }; }

  program() {
    const whole = this.expr();
    if (this.at < this.tokens.length) throw new Error("the text goes on");
    return whole;
  }

  expr() {
    const { word } = this;
    if (word === "fun" || word === "fix") return this.binder(word);
    if (word !== "ifz") return this.sum();
    const { from } = this.take();
    const parts = [this.expr()];
    this.take("then");
    parts.push(this.expr());
    this.take("else");
    parts.push(this.expr());
    return this.made("Ifz", from, parts[2].end, parts);
  }

  binder(word) {
    const { from } = this.take();
    const own = { binds: this.take().word };
    this.take(":");
    while (this.word !== ".") this.take();
    this.take(".");
    this.bound.push(own);
    const body = this.expr();
    this.bound.pop();
    return Object.assign(own, this.made(word === "fun" ? "Lam" : "FixBox", from, body.end, [body]));
  }

  sum() {
    let left = this.product();
    while (Object.hasOwn(SUMS, this.word)) {
      const name = SUMS[this.take().word];
      const right = this.product();
      left = this.made(name, left.start, right.end, [left, right]);
    }
    return left;
  }

  product() {
    let left = this.application();
    while (this.word === "*") {
      this.take();
      const right = this.application();
      left = this.made("Times", left.start, right.end, [left, right]);
    }
    return left;
  }

  beginsAtom() {
    const { word } = this;
    return word === "(" || Object.hasOwn(TAKE_ONE, word) || /^[0-9]/.test(word) || (/^[\p{XID_Start}_]/u.test(word) && !KEYWORDS.has(word));
  }

  application() {
    let left = this.atom();
    while (this.beginsAtom()) {
      const right = this.atom();
      left = this.made("App", left.start, right.end, [left, right]);
    }
    return left;
  }

  atom() {
    if (!this.beginsAtom()) throw new Error("the text isn't a program");
    const { word, from, to } = this.take();
    if (Object.hasOwn(TAKE_ONE, word)) {
      const operand = this.atom();
      return this.made(TAKE_ONE[word], from, operand.end, [operand]);
    }
    if (word === "(") return this.inParentheses(from);
    if (/^[0-9]/.test(word)) return this.made("Const", from, to, [], { value: word.replace(/^0+(?=.)/, "") });
    return this.made("Der", from, to, [], { binder: this.bound.findLast(it => it.binds === word) });
  }

  inParentheses(from) {
    const first = this.expr();
    if (this.word === ",") {
      this.take();
      const second = this.expr();
      return this.made("Pair", from, this.take(")").to, [first, second]);
    }
    return Object.assign(first, { start: from, end: this.take(")").to });
  }
}

// Whether what was read is the tree of the net: the same forms, numbers and binders.
function agrees(read, part, binders = new Map()) {
  if (read.name !== part.node.name || read.parts.length !== part.parts.length) return false;
  if (read.name === "Const" && read.value !== part.node.value) return false;
  if (read.name === "Der" && binders.get(read.binder) !== part.binder) return false;
  if (read.binds !== undefined) binders.set(read, part.node.id);
  return read.parts.every((inner, at) => agrees(inner, part.parts[at], binders));
}

// The text as nested pieces, as termPieces gives them; null where the text isn't the net's.
function ownPieces(text, root) {
  try {
    const read = new Reader(text).program();
    if (!agrees(read, root)) return null;
    const inner = pieceOf(text, read, root);
    return { node: null, pieces: [text.slice(0, read.start), ...inParens(text, read, inner), text.slice(read.end)] };
  } catch (error) {
    return null;
  }
}

const inParens = (text, read, piece) => [text.slice(read.start, read.from), piece, text.slice(read.to, read.end)];

function pieceOf(text, read, part) {
  const pieces = [];
  let at = read.from;
  read.parts.forEach((inner, place) => {
    const { box } = part.parts[place];
    const around = inParens(text, inner, pieceOf(text, inner, part.parts[place]));
    pieces.push(text.slice(at, inner.start), ...(box === undefined ? around : [{ node: null, box, pieces: around }]));
    at = inner.end;
  });
  return { node: part.node.id, pieces: [...pieces, text.slice(at, read.to)] };
}
