// What is said of what the machine refuses: its own line, where that is in the text, and what it means. The words are those of tools/why.

const FIRST_LINES = { net: "run-net", schedule: "replay" };

// The line of a fault of a program, in the text its place, and what tools/why says of it.
function sayRefusal(text, line) {
  const [, name, place] = /^refused: (\w+)(?:\((\d+)\))?/.exec(line) ?? [];
  if (place === undefined) {
    say(line, given.ofFiles[name] ?? "", true);
    return;
  }
  const { index, row, column } = placeOf(text, Number(place));
  const ends = name === "Unexpected" && index === text.length;
  say(line, `line ${row}, column ${column}: ${ends ? given.atEnd : given.ofPrograms[name] ?? ""}${hintOf(name, text, index)}`, true);
  markCharacter(index);
}

// How it is written here, where the text around a place is of a usual slip.
function hintOf(name, text, index) {
  if (!["BadToken", "Unexpected", "Unbound"].includes(name)) return "";
  const [before, rest] = [text.slice(0, index).replaceAll(/#[^\n]*/g, ""), text.slice(index)];
  const isSo = it => new RegExp(`(?:${it.before})$`, "su").test(before) && new RegExp(`^(?:${it.at})`, "su").test(rest);
  const hint = given.hints.find(isSo);
  return hint ? `; ${hint.says}` : "";
}

// The line of a fault of a net or of a schedule, and the line of the text at which it is.
function sayBadFile(box, line) {
  const [, sound, fault, numbers] = /^refused: (NotSound\()?(\w+)(?:\(([\d,]+)\))?/.exec(line);
  const [first, second] = numbers === undefined ? [] : numbers.split(",");
  const row = sound ? rowOfPart(fault, first) : rowOfFault(box, fault, first);
  const meaning = sound ? given.ofNets[fault].replace("N", first) : meaningOf(box, fault, first, second);
  say(line, (row === null ? "" : `line ${row}: `) + meaning, true);
  if (row !== null) markLine(box, row);
}

// The line of a listing with the wire or the node of a fault.
function rowOfPart(fault, number) {
  if (fault === "RootCount") return null;
  const begins = `${fault === "LooseWire" ? "wire" : "node"} ${number} `;
  const at = textIn("net").split("\n").findIndex(it => it.startsWith(begins));
  return at < 0 ? null : at + 1;
}

function rowOfFault(box, fault, number) {
  if (fault === "BadHeader") return 1;
  if (fault === "NotLive" || fault === "AfterAnswer") return rowOfEntry(textIn(box), Number(number));
  return number === undefined ? null : Number(number);
}

// The line of a schedule with this entry, counted from 0.
function rowOfEntry(text, entry) {
  let seen = 0;
  for (const [at, line] of text.split("\n").slice(1).entries()) {
    seen += Number(line.split(" ")[1] ?? 1);
    if (entry < seen) return at + 2;
  }
  return null;
}

function meaningOf(box, fault, first, second) {
  const command = FIRST_LINES[box];
  const isFirst = fault === "BadHeader" || (fault === "BadLine" && box === "net" && first === "1");
  if (isFirst) return `the first line is ${given.headers[command]}`;
  switch (fault) {
    case "BadLine": return `here comes ${given.lines[command]}`;
    case "NotLive": return `entry ${first}: ticket ${second} is not live: it has ended, or has not begun`;
    case "AfterAnswer": return `entry ${first}: the answer has come already, and nothing moves behind it`;
    case "TicketTooWide": return "a ticket is at most 4294967295";
    case "TooLong": return first === undefined ? given.ofFiles[fault] : "with this line the schedule has more than 10,000,000 moves";
    default: return given.ofFiles[fault] ?? "";
  }
}
