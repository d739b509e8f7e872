// The box of a net: the listing of the program's, or one that a hand has changed. The machine says whether it is a program's net, and runs
// it. A net stands for one term, so that its walk is that of the term that is read off it.

// The listing that was put into the box last: a text that a hand has changed isn't put away for that of another program.
const nets = { listed: "" };

function putNet(text) {
  nets.listed = text;
  putText("net", text);
}

const listNet = () => begin(async isMine => {
  const text = programGiven();
  const found = await asked(text, "goi_net", [text], [], isMine);
  if (!found) return;
  putNet(found.text);
  say(`${found.text.split("\n").length - 3} wires and nodes`, "Change a line and run the net: a broken one is refused with the line.");
});

const runNet = () => begin(async isMine => {
  const listing = textIn("net");
  const budget = budgetGiven();
  const found = await asked("", "goi_run_net", [listing], [budget, 0], isMine, "net");
  if (!found) return;
  say(reportOf(found.text), timeText(found.milliseconds));
  const program = walk.termText(walk.readNet(listing));
  const listed = await ask("goi_net", [program], []);
  if (!isMine() || listed.status !== OK || listed.text !== listing) return;
  const traced = await asked(program, "goi_trace", [program], [budget, 0, 0, MOST_SHOWN], isMine);
  if (!traced) return;
  // (A listing has no names; where it is that of the program in the box, the walk has the program's.)
  const own = await ask("goi_net", [programGiven()], []);
  if (!isMine()) return;
  const isOwn = own.status === OK && own.text === listing;
  const named = isOwn ? namesOf(programGiven(), false) : { name: "a net", file: "program.pcf" };
  walk.openWalk({ ...named, program: isOwn ? programGiven() : program, net: listing, trace: traced.text });
  byId("own-save").disabled = false;
});

const saveNet = () => walk.saveFile(walk.fileStem() + ".net", "text/plain", textIn("net"));
