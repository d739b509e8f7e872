// What each rule does, in plain words. The rows are those of docs/WALK.md, each with its other way. Each has four sentences: a question
// and an answer that go the row's way, and a question and an answer that go back. V is the answer's value.

const ROWS = [
  { node: "Lam", from: ["conclusion", "up", "R.m", "t"], to: ["body", "up", "m", "t"],
    question: "The question is for the function's result. R comes off, and it goes up to the function's body.",
    answer: "The answer V goes back into the function's body. R comes off: it was put on when the question came out here.",
    questionBack: "The question comes out of the function's body. R is put on top, so that its answer finds the way back.",
    answerBack: "The body has answered V, and that is the function's result. R is put on top for whoever applied the function." },
  { node: "Lam", from: ["variable", "down", "s.m", "t"], to: ["conclusion", "down", "L.s.m", "t"],
    question: "The function asks for its argument. L is put on top of the use s, and the question goes down to whoever applies it.",
    answer: "The function answers V to what its argument asked. L is put on top, and the answer goes down to whoever applied it.",
    questionBack: "The argument, itself a function, asks for something. L comes off, and the question goes up to the use s.",
    answerBack: "The argument has answered V. L comes off, and the answer goes up to the use s that asked." },
  { node: "App", from: ["conclusion", "up", "m", "t"], to: ["function", "up", "R.m", "t"],
    question: "The value of an application is its function's result. R is put on top, and the question goes up to the function.",
    answer: "The answer V goes back up to the function. R is put on top: its question came from the function's result.",
    questionBack: "The function's result asks for something outside. R comes off, and the question goes down.",
    answerBack: "The function has answered V. R comes off: V is the value of the application." },
  { node: "App", from: ["function", "down", "L.s.m", "t"], to: ["argument", "up", "s.m", "t"],
    question: "The function asks for its argument. L comes off, and the question goes up to the argument, with the use s on top.",
    answer: "The function answers V to what the argument asked. L comes off, and the answer goes up to the argument.",
    questionBack: "The argument, itself a function, asks what it is applied to. L is put on top, and the question goes up to the function.",
    answerBack: "The argument has answered V. L is put on top, and the answer goes up to the function, to the use that asked." },
  { node: "Box", from: ["outside", "up", "s.m", "t"], to: ["inside", "up", "m", "s.t"],
    question: "The question goes into the argument's box. The use s comes off the work stack and marks this copy of the box.",
    answer: "The answer V goes back into the box. The use s marks the copy of the box from which its question came.",
    questionBack: "The question leaves the box. The mark s comes off the box stack and says which use of the argument asks.",
    answerBack: "The answer V leaves the box. The mark s comes off the box stack and says which use of the argument asked." },
  { node: "Door", from: ["inside", "down", "u.m", "s.t"], to: ["outside", "down", "<s,u>.m", "t"],
    question: "A variable from outside is asked for. The copy s of the box and the use u become one use, <s,u>.",
    answer: "The answer V leaves the box by its door. The copy s of the box and the use u become one use, <s,u>.",
    questionBack: "The question comes into the box by its door. <s,u> comes apart into the copy s of the box and the use u.",
    answerBack: "The answer V comes into the box by its door. <s,u> comes apart into the copy s of the box and the use u." },
  { node: "Der", from: ["value", "up", "m", "t"], to: ["variable", "down", "*.m", "t"],
    question: "This is a use of a variable. * is put on top, and the question goes down to where the variable is bound.",
    answer: "The answer V goes back down the variable, with * on top.",
    questionBack: "The question comes up the variable to this use. * comes off, and it goes down to whoever has this use's value.",
    answerBack: "The variable has answered V. * comes off: V is the value of this use." },
  { node: "Con", from: ["left", "down", "s.m", "t"], to: ["conclusion", "down", "l s.m", "t"],
    question: "Two uses of one variable meet here. The question comes from the left one: l is put in front of the use.",
    answer: "Two uses of one variable meet here. The answer V comes from the left one: l is put in front of the use.",
    questionBack: "The mark l says that the left use is asked. It comes off, and the question goes up to the left.",
    answerBack: "The mark l says that the left use asked. It comes off, and the answer V goes up to the left." },
  { node: "Con", from: ["right", "down", "s.m", "t"], to: ["conclusion", "down", "r s.m", "t"],
    question: "Two uses of one variable meet here. The question comes from the right one: r is put in front of the use.",
    answer: "Two uses of one variable meet here. The answer V comes from the right one: r is put in front of the use.",
    questionBack: "The mark r says that the right use is asked. It comes off, and the question goes up to the right.",
    answerBack: "The mark r says that the right use asked. It comes off, and the answer V goes up to the right." },
  { node: "FixBox", from: ["conclusion", "up", "m", "t"], to: ["body", "up", "m", "*.t"],
    question: "A recursive term is asked for from outside. The question goes into its body: the mark * is the outermost call.",
    answer: "The answer V goes back into the outermost call, whose mark is *.",
    questionBack: "The outermost call asks for something outside. Its mark * comes off, and the question goes down.",
    answerBack: "The outermost call has answered V. Its mark * comes off, and the answer goes down to whoever asked." },
  { node: "FixBox", from: ["variable", "down", "s.m", "u.t"], to: ["body", "up", "m", "y(u,s).t"],
    question: "The recursive term calls itself. The question goes into the body anew, as y(u,s): the call s from inside the call u.",
    answer: "The answer V goes back into an inner call. It is y(u,s): the call s from inside the call u.",
    questionBack: "An inner call asks its caller for something. y(u,s) comes apart: the question goes to the call s, inside the call u.",
    answerBack: "An inner call has answered V. y(u,s) comes apart and says who called: the call s, inside the call u." },
  { node: "Pair", from: ["conclusion", "up", "L.m", "t"], to: ["first", "up", "m", "t"],
    question: "The first part of the pair is asked for. L comes off, and the question goes up to that part.",
    answer: "The answer V goes back to the first part of the pair. L comes off.",
    questionBack: "The first part of the pair asks for something. L is put on top: it says which part asks.",
    answerBack: "The first part of the pair has answered V. L is put on top: it says which part answers." },
  { node: "Pair", from: ["conclusion", "up", "R.m", "t"], to: ["second", "up", "m", "t"],
    question: "The second part of the pair is asked for. R comes off, and the question goes up to that part.",
    answer: "The answer V goes back to the second part of the pair. R comes off.",
    questionBack: "The second part of the pair asks for something. R is put on top: it says which part asks.",
    answerBack: "The second part of the pair has answered V. R is put on top: it says which part answers." },
  { node: "Fst", from: ["conclusion", "up", "m", "t"], to: ["operand", "up", "L.m", "t"],
    question: "The first part of a pair is asked for. L is put on top, and the question goes up to the pair.",
    answer: "The answer V goes back up to the pair. L is put on top: it is for the first part.",
    questionBack: "The first part of the pair asks for something. L comes off, and the question goes down.",
    answerBack: "The first part of the pair has answered V. L comes off, and the answer goes down." },
  { node: "Snd", from: ["conclusion", "up", "m", "t"], to: ["operand", "up", "R.m", "t"],
    question: "The second part of a pair is asked for. R is put on top, and the question goes up to the pair.",
    answer: "The answer V goes back up to the pair. R is put on top: it is for the second part.",
    questionBack: "The second part of the pair asks for something. R comes off, and the question goes down.",
    answerBack: "The second part of the pair has answered V. R comes off, and the answer goes down." },
];

// The operators at which tokens fork and join: sign and name of the result.
const OPERATORS = { Plus: ["+", "sum"], Minus: ["−", "difference"], Times: ["×", "product"] };

const TITLES = {
  Const: "a number", Succ: "one more", Pred: "one less", Plus: "a sum", Minus: "a difference", Times: "a product", Ifz: "a test for 0",
  Der: "a use of a variable", Con: "two uses of one variable", Weak: "a variable without a use", Lam: "a function", App: "an application",
  Box: "the box of an argument", Door: "a door of a box", FixBox: "a recursive term", Root: "the root", Pair: "a pair",
  Fst: "the first part of a pair", Snd: "the second part of a pair",
};

// {title, say, from, to}: the row that was applied, with its sentence. `from` and `to` are missing where the rule is one of numbers.
function ruleOf(move) {
  const asks = move.before.value === "?";
  for (const row of ROWS) {
    if (row.node !== move.name) continue;
    const forth = row.from[0] === move.in && row.to[0] === move.out;
    const back = row.to[0] === move.in && row.from[0] === move.out;
    if (!forth && !back) continue;
    const say = row[(asks ? "question" : "answer") + (back ? "Back" : "")].replaceAll(/\bV\b/g, move.before.value);
    const [from, to] = back ? [turned(row.to), turned(row.from)] : [row.from, row.to];
    return { title: move.name + ": " + from[0] + (back ? " back to " : " to ") + to[0], say, from, to };
  }
  return OPERATORS[move.name] ? operatorRule(move) : numberRule(move, asks);
}

const turned = ([port, direction, work, boxes]) => [port, direction === "up" ? "down" : "up", work, boxes];

function operatorRule(move) {
  const { name, ticket, ticket2, left, right } = move;
  const [sign, result] = OPERATORS[name];
  switch (move.kind) {
    case "fork":
      return { title: name + ": fork", say: `Both operands are asked for at once. Ticket ${ticket} goes to the left one, and the new ` +
        `ticket ${ticket2} to the right one. An entry is opened, in which their answers will meet.` };
    case "kept":
      return { title: name + ": first answer", say: `The first answer at this fork has come. ${move.before.value} is kept for the ` +
        `${move.in} operand, and ticket ${ticket} ends.` };
    default:
      return { title: name + ": join", say: `The second answer meets the first. ${left} ${sign} ${right} is ${move.after.value}, ` +
        `which goes down as the ${result}. The entry is gone.` };
  }
}

function numberRule(move, asks) {
  const value = move.before.value;
  switch (move.name) {
    case "Const":
      return { title: "Const: a number", say: `A number answers at once. The question turns round as the answer ${move.after.value}.` };
    case "Succ": case "Pred": {
      if (asks) return { title: move.name + ": ask the operand", say: "First the operand is asked for." };
      const what = move.name === "Succ" ? "successor" : "predecessor";
      return { title: move.name + ": apply", say: `The operand is ${value}. Its ${what}, ${move.after.value}, goes down.` };
    }
    case "Ifz": {
      if (move.in === "conclusion") return { title: "Ifz: ask the condition", say: "First the condition is asked for." };
      if (move.in !== "condition") {
        return { title: "Ifz: answer of the branch", say: `The chosen branch has answered ${value}, and that is the value of the whole.` };
      }
      const branch = move.out === "then" ? "so the first branch is asked for." : "which isn't 0, so the second branch is asked for.";
      return { title: "Ifz: choose a branch", say: `The condition is ${value}, ${branch}` };
    }
    case "Root":
      return { title: "Root: the answer", say: `The answer ${move.value} has come to the root, and the run is over.` };
    default:
      return { title: move.name, say: asks ? "The question goes on." : `The answer ${value} goes on.` };
  }
}
