// The boxes for texts, and the places in them that are marked. A box can't mark a part of its text: behind it lies the same text once more,
// in letters that aren't seen, with the mark in it. The box `own` has the program, `net` a listing, `schedule` a schedule. What the machine
// counts in bytes is a place in the text here.

const byId = id => document.getElementById(id);

const BOXES = ["own", "net", "schedule"];
const boxOf = name => byId(name + "-text");
const textIn = name => boxOf(name).value;
const programGiven = () => textIn("own");

// The place of a byte of the text: {index, row, column}, in which the column counts characters, and both count from 1.
function placeOf(text, offset) {
  const before = new TextDecoder().decode(new TextEncoder().encode(text).subarray(0, offset));
  const rows = before.split("\n");
  return { index: before.length, row: rows.length, column: [...rows.at(-1)].length + 1 };
}

// Marks a part of a box's text, or a space where the part is empty or the end of a line.
function markPart(name, from, to) {
  const text = textIn(name);
  const part = text.slice(from, to);
  const isSeen = part !== "" && part !== "\n";
  const mark = document.createElement("mark");
  mark.textContent = isSeen ? part : " ";
  // A last line that is empty has no height without a space.
  byId(name + "-marks").replaceChildren(text.slice(0, from), mark, text.slice(isSeen ? to : from) + " ");
  boxOf(name).setAttribute("aria-invalid", "true");
  const box = boxOf(name);
  const top = mark.offsetTop - byId(name + "-marks").offsetTop;
  if (top < box.scrollTop || top > box.scrollTop + box.clientHeight - 24) box.scrollTop = top - 24;
  scrollMarks(name);
}

// Marks the character at this index.
function markCharacter(index) {
  const character = String.fromCodePoint(programGiven().codePointAt(index) ?? 32);
  markPart("own", index, index + character.length);
}

// Marks a line, counted from 1.
function markLine(name, row) {
  const rows = textIn(name).split("\n");
  const from = rows.slice(0, row - 1).reduce((sum, it) => sum + it.length + 1, 0);
  markPart(name, from, from + (rows[row - 1] ?? "").length);
}

function unmark(name) {
  byId(name + "-marks").replaceChildren();
  boxOf(name).removeAttribute("aria-invalid");
}

function scrollMarks(name) {
  byId(name + "-marks").scrollTop = boxOf(name).scrollTop;
}

function putText(name, text) {
  boxOf(name).value = text;
  unmark(name);
}

// The box of the program is as high as its text, up to a quarter of the window; in a low one less, so that what is said of a move and the
// stacks have their room below. A hand can make it another height.
const BOX = { share: 0.26, most: 112, least: 76, below: 570 };
function fitBox() {
  const box = boxOf("own");
  box.style.height = "auto";
  const share = innerHeight * BOX.share;
  const most = narrow.matches ? Math.max(BOX.most, share) : Math.max(BOX.least, Math.min(share, innerHeight - BOX.below));
  box.style.height = Math.min(box.scrollHeight, most) + "px";
}

function putProgram(text) {
  putText("own", text);
  fitBox();
}
