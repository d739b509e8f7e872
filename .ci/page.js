// What .ci/page asks of a page in the browser. It reads what is shown, and what the page was given to draw.

const byId = id => document.getElementById(id);

// What the page's own tables show behind so many moves, for each of a list.
function shownStates(places) {
  // A long stack is cut, and its cell has the whole of it as its title.
  const cells = row => [...row.children].map(cell => cell.title || cell.textContent);
  const rows = id => [...document.querySelectorAll(`#${id} tr`)].filter(row => row.children.length > 1).map(cells);
  return places.map(at => {
    walk.show(at);
    const marked = document.querySelector("#picture .node.at");
    return {
      live: rows("live"), liveCount: byId("live-count").textContent, open: rows("open"), openCount: byId("open-count").textContent,
      answer: byId("answer").textContent, now: byId("now").value, node: marked ? Number(marked.dataset.node) : null,
      glyphs: document.querySelectorAll("#picture .token").length,
      stacks: ["work", "boxes"].map(id => shownStack(id)),
    };
  });
}

// A stack's panel: how many parts came off and were put on, the parts that are left, and their number.
function shownStack(id) {
  const cells = kind => [...document.querySelectorAll(`#${id} .cell${kind}`)].map(cell => cell.title.replace(/^(came off|new): /, ""));
  return { gone: cells(".gone").length, fresh: cells(".new").length, parts: cells(":not(.gone)"), count: byId(id + "-count").textContent };
}

// Opens files of these names and texts; what the page says of them, and the name of what is open then.
async function openTexts(files) {
  await walk.openFiles(files.map(([name, text]) => new File([text], name)));
  return { trouble: byId("nothing").hidden ? "" : byId("trouble").textContent, name: walk.view.name };
}

const middleOf = selector => {
  const { x, y, width, height } = document.querySelector(selector).getBoundingClientRect();
  return [x + width / 2, y + height / 2];
};

// Contrast of two colours, as WCAG counts it.
function lightOf(colour) {
  const parts = colour.match(/[\d.]+/g).slice(0, 3).map(part => Number(part) / 255);
  const [red, green, blue] = parts.map(part => part <= 0.03928 ? part / 12.92 : ((part + 0.055) / 1.055) ** 2.4);
  return 0.2126 * red + 0.7152 * green + 0.0722 * blue;
}
function contrast(one, two) {
  const [a, b] = [lightOf(one), lightOf(two)];
  return (Math.max(a, b) + 0.05) / (Math.min(a, b) + 0.05);
}

// The first ground below an element that isn't seen through.
function groundOf(element) {
  for (let at = element; at; at = at.parentElement) {
    const { backgroundColor } = getComputedStyle(at);
    if (/^rgb\(/.test(backgroundColor)) return backgroundColor;
  }
  return "rgb(255, 255, 255)";
}

function colourNamed(name) {
  const probe = document.createElement("i");
  probe.style.color = `var(${name})`;
  document.body.append(probe);
  const { color } = getComputedStyle(probe);
  probe.remove();
  return color;
}

// Texts whose contrast is below 4.5, and how many were looked at, in a theme, with colours by ticket or by worker, behind so many moves.
function lowContrasts(theme, colourBy, at) {
  walk.setTheme(theme);
  walk.setColourBy(colourBy);
  walk.show(at);
  const low = [];
  let count = 0;
  const hold = (what, ink, paper) => {
    count++;
    const found = contrast(ink, paper);
    if (found < 4.5) low.push(what + " " + found.toFixed(2));
  };
  const own = element => [...element.childNodes].some(node => node.nodeType === Node.TEXT_NODE && node.data.trim());
  for (const element of document.querySelectorAll("body *")) {
    if (element.closest("svg") || element.matches("script, style, option") || !own(element)) continue;
    // (What is clear lies behind a text that isn't.)
    if (getComputedStyle(element).color === "rgba(0, 0, 0, 0)") continue;
    const what = `${element.tagName} ${element.id || element.className}: ${element.textContent.slice(0, 30)}`;
    hold(what, getComputedStyle(element).color, groundOf(element));
  }
  for (const text of document.querySelectorAll("#picture text, #picture tspan")) {
    if (!own(text)) continue;
    const grounds = text.closest(".label") ? ["--bg", "--box1", "--box2", "--fix1"].map(colourNamed) : [groundOfSign(text)];
    for (const ground of grounds) hold("picture: " + text.textContent, getComputedStyle(text).fill, ground);
  }
  return [low, count];
}

// A text of the picture stands on the rectangle of its own group.
const groundOfSign = text => getComputedStyle(text.closest("g").querySelector("rect")).fill;

// Controls without a name, and things that the keyboard can reach.
function nameless() {
  const labelOf = it => it.labels && it.labels[0] ? it.labels[0].textContent : "";
  const nameOf = it => it.getAttribute("aria-label") || it.textContent.trim() || labelOf(it);
  const all = [...document.querySelectorAll("button, input, select, summary, dialog, [role]:not([role=alert]), [tabindex]")];
  return all.filter(it => !nameOf(it).trim()).map(it => it.outerHTML.slice(0, 80));
}

// How much the page runs over its window, and which controls are outside.
function outside() {
  const controls = [...document.querySelectorAll("button, input, select")].filter(it => it.offsetParent && !it.closest("dialog"));
  const out = controls.filter(it => {
    const { left, right } = it.getBoundingClientRect();
    return left < -1 || right > innerWidth + 1;
  });
  return [document.scrollingElement.scrollWidth - innerWidth, out.map(it => it.id)];
}

// Texts beside wires that meet a wire, a node or one another.
function metTexts() {
  const texts = [...document.querySelectorAll("#picture .label")].map(it => ({ text: it.textContent, box: it.getBBox() }));
  const inside = (box, x, y) => x > box.x && x < box.x + box.width && y > box.y + 1 && y < box.y + box.height - 2;
  const over = (a, b) => a.x < b.x + b.width && b.x < a.x + a.width && a.y + 1 < b.y + b.height - 1 && b.y + 1 < a.y + a.height - 1;
  const met = new Set();
  [...document.querySelectorAll("#picture .wire")].forEach((path, wire) => {
    for (let at = 0, length = path.getTotalLength(); at < length; at += 3) {
      const { x, y } = path.getPointAtLength(at);
      for (const { text, box } of texts) if (inside(box, x, y)) met.add(`${text} and wire ${wire}`);
    }
  });
  for (const { x, y, width } of walk.view.layout.places) {
    const node = { x: x - width / 2, y: y - 13, width, height: 26 };
    for (const { text, box } of texts) if (over(box, node)) met.add(`${text} and a node`);
  }
  texts.forEach((one, at) => {
    for (const two of texts.slice(at + 1)) if (over(one.box, two.box)) met.add(`${one.text} and ${two.text}`);
  });
  return [...met];
}

// Nodes that overlap, wires that don't end at their nodes or run up, nodes that aren't in as many frames as their wires are deep.
function layoutFaults() {
  const { net, layout } = walk.view;
  const faults = [];
  const boxOf = ({ x, y, width }, id) => ({ id, left: x - width / 2, right: x + width / 2, top: y - 13, bottom: y + 13 });
  const boxes = layout.places.map(boxOf);
  boxes.sort((one, two) => one.left - two.left);
  boxes.forEach((one, at) => {
    for (let next = at + 1; next < boxes.length && boxes[next].left < one.right; next++) {
      const two = boxes[next];
      if (Math.min(one.bottom, two.bottom) - Math.max(one.top, two.top) > 0.5) faults.push(`nodes ${one.id} and ${two.id}`);
    }
  });
  for (const { id, above, below } of net.wires) {
    const points = layout.points[id];
    const meets = ([x, y], node, side) => Math.abs(y - node.y - side * 13) < 0.6 && Math.abs(x - node.x) <= node.width / 2;
    const [upper, lower] = [layout.places[above], layout.places[below]];
    if (!meets(points[0], upper, 1) || !meets(points[points.length - 1], lower, -1)) faults.push(`ends of wire ${id}`);
    if (points.some((point, at) => at > 0 && point[1] < points[at - 1][1])) faults.push(`wire ${id} runs up`);
  }
  for (const { id, up, down } of net.nodes) {
    const { x, y } = layout.places[id];
    const depth = Math.min(...[...up, ...down].map(wire => net.wires[wire].depth));
    const around = layout.frames.filter(({ left, right, top, bottom }) => x > left && x < right && y > top && y < bottom - 0.5);
    if (around.length !== depth) faults.push(`frames of node ${id}`);
  }
  return faults;
}

// Of a question and its answer each leads to the other: the moves at which that doesn't hold, and how many were tried.
function otherEnds() {
  const wrong = [];
  let count = 0;
  for (let at = 1; at <= walk.view.run.length; at++) {
    walk.show(at);
    if (byId("other").disabled) continue;
    count++;
    walk.goOther();
    const there = walk.view.run.state.at;
    walk.goOther();
    if (there === at || walk.view.run.state.at !== at) wrong.push(at);
  }
  return [wrong, count];
}

// Moves whose row or sentence doesn't fit: the row's directions and tops of stacks are held against the tokens of the line.
function wrongRows() {
  const wrong = [];
  const { run } = walk.view;
  for (let at = 0; at < run.length; at++) {
    const move = run.move(at);
    const { title, say, from, to } = walk.ruleOf(move);
    const tells = title.startsWith(move.name + ": ") && !/undefined|null|NaN|\bV\b/.test(say) && say.length > 20;
    const numbers = !from && (move.before.work === "-" || move.before.work === undefined);
    const row = from && tops(from, move.before) && tops(to, move.after) && from[0] === move.in && to[0] === move.out;
    if (!tells || !(row || numbers)) wrong.push(move.number + " " + title + " " + say);
  }
  return wrong;
}

// Whether a token goes the row's way and has on top of its stacks what the row says.
function tops([, direction, work, boxes], token) {
  const top = (pattern, stack) => {
    const parts = pattern.split(".").slice(0, -1);
    const found = stack === "-" ? [] : stack.split(".");
    return parts.every((part, at) => {
      if (found[at] === undefined) return false;
      if (/^[LR*]$/.test(part)) return found[at] === part;
      if (/^[su]$/.test(part)) return !/^[LR]$/.test(found[at]);
      return found[at].startsWith(part[0]);
    });
  };
  return direction === token.direction && top(work, token.work) && top(boxes, token.boxes);
}

// Drops files of these names and texts on the page.
function dropTexts(files) {
  const dataTransfer = new DataTransfer();
  for (const [name, text] of files) dataTransfer.items.add(new File([text], name));
  document.dispatchEvent(new DragEvent("drop", { dataTransfer, bubbles: true, cancelable: true }));
}

// Nodes that the window shows and that aren't in the picture, and whether they are drawn in rough.
function missingNodes() {
  const { left, right, top, bottom } = walk.shownRange();
  const drawn = new Set([...document.querySelectorAll("#picture .node")].map(it => Number(it.dataset.node)));
  const inside = ({ x, y }) => x >= left && x <= right && y >= top && y <= bottom;
  return [walk.view.layout.places.filter((place, id) => inside(place) && !drawn.has(id)).length, !byId("rough").hidden];
}

// Whether the page offers to exchange the two moves behind each of these places.
function swapsOffered(places) {
  const { run } = walk.view;
  return places.map(at => {
    run.go(at);
    return walk.whyNoSwap(run) === null;
  });
}

// Moves behind which the page's own whole stacks aren't what the line says, or have a mark that another kind of node makes.
const MAKERS = { "*": ["Der", "FixBox"], l: ["Con"], r: ["Con"], "<": ["Door"], y: ["FixBox"] };
function wrongStacks() {
  const { run, questions, net } = walk.view;
  const spell = (stack, most) => walk.marksIn(stack).map(({ mark }) => walk.spelled(mark, 1, most));
  const cut = parts => parts.length > 8 ? [...parts.slice(0, 8), "+" + (parts.length - 8)] : parts;
  const isMade = mark => {
    if (!MAKERS[mark.sign]) return true;
    return mark.node >= 0 && MAKERS[mark.sign].includes(net.nodes[mark.node].name) && [mark.s, mark.u].every(it => !it || isMade(it));
  };
  const fits = (stack, text) => (cut(spell(stack)).join(".") || "-") === text || (spell(stack, Infinity).join(".") || "-") === text;
  const holds = (given, token) => fits(given.work, token.work) && fits(given.boxes, token.boxes);
  const wrong = [];
  for (let at = 0; at < run.length; at++) {
    const { after, after2, number } = run.move(at);
    const given = questions.given[at];
    if (after && !holds(given, after)) wrong.push(number);
    if (after2 && !holds(questions.second.get(at), after2)) wrong.push(number);
    // (A signature of a long run is looked at to no great depth.)
    if (at < 3000 && !walk.marksIn(given.boxes).every(({ mark }) => isMade(mark))) wrong.push(number);
  }
  return wrong;
}

// The tree of questions behind so many moves, for each of a list: a row's depth, node, tickets and when it was asked; and its text.
function shownQuestions(places) {
  return places.map(at => {
    walk.show(at);
    return walk.waitingRows().map(row => [row.depth, row.frame.hole ? row.frame.node : -1, row.tickets, row.frame.at + 1]);
  });
}
function questionTexts(at) {
  walk.show(at);
  return [...document.querySelectorAll("#waiting .waits")].map(it => (it.matches(".present") ? "> " : "") + it.textContent);
}

// What a press on a stack's uppermost signature tells.
function chainTold(at, id) {
  walk.show(at);
  document.querySelector(`#${id} button.cell`).click();
  return [...document.querySelectorAll("#chain .link")].map(it => it.children[1].textContent);
}

// The moves that are listed of the round behind so many moves, and what is told where the row with this place is pressed.
function roundShown(at, place) {
  walk.show(at);
  const rows = [...document.querySelectorAll("#round-moves .moved")];
  const texts = rows.map(it => it.textContent);
  if (rows.length > 0) rows[place].click();
  const nodes = kind => [...document.querySelectorAll(`#picture .node.${kind}`)].map(it => Number(it.dataset.node));
  const told = byId("say").children[1].textContent;
  return {
    rows: texts, told: [/ticket \d+/, /node \d+$/].map(part => part.exec(told)[0]), node: nodes("at")[0], others: nodes("too"),
    now: byId("now").value,
  };
}

// Where the strip has marks at its upper and its lower edge, as shares of its width. (The state is the one at the start.)
function stripInk() {
  walk.show(0);
  const canvas = byId("strip");
  const { width, height } = canvas;
  const brush = canvas.getContext("2d");
  const ratio = width / canvas.clientWidth;
  const [left, whole] = [8 * ratio, width - 16 * ratio];
  const inked = y => {
    const { data } = brush.getImageData(0, y, width, 1);
    const places = [];
    for (let x = Math.ceil(left) + 3; x < width; x++) if (data[4 * x + 3] > 100) places.push((x - left) / whole);
    return places;
  };
  return { above: inked(1), below: inked(height - 2) };
}

// For each move the call for which it is made; and by ticket the colour of each token that is drawn behind so many moves.
function callNumbers() {
  const { run, questions } = walk.view;
  return [...Array(run.length).keys()].map(at => questions.callOf(questions.given[at].hole));
}
function tokenColours(at) {
  walk.show(at);
  const glyphs = [...document.querySelectorAll("#picture .token")];
  return Object.fromEntries(glyphs.map(it => [it.querySelector(".tag").textContent, it.querySelector("path").style.fill]));
}

// The run beside, behind so many moves of the one that is shown: its tokens, what is said, the table, and how far each strip reaches.
function besideShown(at) {
  walk.show(at);
  const canvas = byId("beside-strips");
  const brush = canvas.getContext("2d");
  const reach = y => {
    const { data } = brush.getImageData(0, y * canvas.height / canvas.clientHeight, canvas.width, 1);
    let last = -1;
    for (let x = 0; x < canvas.width; x++) if (data[4 * x + 3] > 100) last = x;
    return (last + 1) / canvas.width;
  };
  return {
    tokens: [...document.querySelectorAll("#beside-picture .token")].map(it => it.dataset.token), say: byId("beside-say").textContent,
    table: [...document.querySelectorAll("#both tr")].map(row => [...row.children].map(it => it.textContent)),
    strips: [reach(12), reach(42)],
  };
}

// How large the letters of the picture, of the sentence beside it and of the program are on the screen.
function letterSizes() {
  const all = [...document.querySelectorAll("#picture :is(text, tspan), #told *, #program")].filter(it => it.textContent.trim());
  return all.map(it => parseFloat(getComputedStyle(it).fontSize) * (it.getScreenCTM ? it.getScreenCTM().d : 1));
}

// The smallest letter of the picture behind so many moves, of those that are seen.
function smallestLetter(at) {
  walk.show(at);
  const all = [...document.querySelectorAll("#picture :is(text, tspan)")];
  const seen = all.filter(it => it.textContent.trim() && it.getClientRects().length > 0);
  return Math.min(...seen.map(it => parseFloat(getComputedStyle(it).fontSize) * it.getScreenCTM().d));
}

// The least that a letter of the wall may have.
const leastLetter = () => Math.min(innerHeight / 36, innerWidth / 21) - 0.1;

// Where the sentence is below the net, the picture is as high as it leaves room, and is laid out anew a little later.
const settled = () => innerHeight > innerWidth ? new Promise(done => requestAnimationFrame(() => requestAnimationFrame(() => setTimeout(done, 20)))) : null;

const rectOf = it => it.getBoundingClientRect();
const areMet = (one, two) => Math.min(one.right, two.right) - Math.max(one.left, two.left) > 1.5 &&
  Math.min(one.bottom, two.bottom) - Math.max(one.top, two.top) > 1.5;
const isWithin = (one, two) => one.left >= two.left - 1 && one.right <= two.right + 1 && one.top >= two.top - 1 && one.bottom <= two.bottom + 1;
const isSeen = it => it.getClientRects().length > 0 && getComputedStyle(it).visibility === "visible";

// What hides a part of the net behind so many moves, and whether the picture has less than half of the window.
function pictureFaults(places) {
  const wrong = [];
  for (const at of places) {
    walk.show(at);
    const [picture, footer] = [byId("picture"), document.querySelector("footer")].map(rectOf);
    if (picture.bottom > footer.top + 2) wrong.push(`${at}: the footer hides ${Math.round(picture.bottom - footer.top)} px`);
    const share = picture.width * (Math.min(picture.bottom, footer.top) - picture.top) / innerWidth / innerHeight;
    if (share < 0.5) wrong.push(`${at}: ${share.toFixed(2)} of the window`);
  }
  return wrong;
}

// Controls that meet, that are outside of the window, or whose words are cut off, of those that always are in sight.
function controlFaults() {
  const wrong = [];
  const all = [...document.querySelectorAll("header > button, header h1, #summary, .tools button, footer :is(button, input, select, label), #map, #own-head button")]
    .filter(it => isSeen(it) && it.id !== "files");
  all.forEach((it, place) => {
    const name = it.id || it.textContent.trim();
    const box = rectOf(it);
    if (box.left < -0.5 || box.right > innerWidth + 0.5 || box.top < -0.5 || box.bottom > innerHeight + 0.5) wrong.push(`outside: ${name}`);
    if (it.closest(".tools") && !isWithin(box, rectOf(byId("net")))) wrong.push(`outside of the picture: ${name}`);
    if (it.scrollWidth > it.clientWidth + 1 && !it.matches("input, select")) wrong.push(`cut off: ${name}`);
    for (const other of all.slice(place + 1)) {
      if (!it.contains(other) && !other.contains(it) && areMet(box, rectOf(other))) wrong.push(`${name} meets ${other.id || other.textContent.trim()}`);
    }
  });
  return wrong;
}

// The card beside the token that is told, where it isn't whole in the picture, or is below something.
function cardFaults(places) {
  const wrong = [];
  for (const at of places) {
    walk.show(at);
    const card = document.querySelector("#picture .card");
    if (!card) continue;
    const footer = rectOf(document.querySelector("footer"));
    const picture = rectOf(byId("picture"));
    const room = { left: picture.left, right: picture.right, top: picture.top, bottom: footer.left > picture.left + 1 ? picture.bottom : Math.min(picture.bottom, footer.top) };
    const covers = [...document.querySelectorAll("#net .tools, #map, #chain")].filter(isSeen).map(rectOf);
    if (!isWithin(rectOf(card), room)) wrong.push(`${at}: the card is cut off`);
    if (covers.some(it => areMet(it, rectOf(card)))) wrong.push(`${at}: the card is covered`);
  }
  return wrong;
}

// Buttons beside the picture that are lit though a press on them changes nothing of it, behind so many moves.
function litFaults(places) {
  const seen = () => places.map(at => {
    walk.show(at);
    return byId("picture").innerHTML;
  }).join();
  const lit = [...document.querySelectorAll(".tools button[aria-pressed=true]")].filter(isSeen)
    .filter(it => getComputedStyle(it).backgroundColor === colourNamed("--accent"));
  return lit.filter(it => {
    seen();
    const before = seen();
    it.click();
    const after = seen();
    if (!it.disabled) it.click(); else walk.keys[{ follow: "f" }[it.id]]();
    return before === after;
  }).map(it => it.id);
}

// On the wall, behind so many moves: nodes, tokens and what is put beside nodes that aren't whole in the picture, or are below something.
function wholeFaults(places) {
  const wrong = [];
  const covers = [...document.querySelectorAll("#net .tools, #map")].filter(isSeen).map(rectOf);
  for (const at of places) {
    walk.show(at);
    const picture = rectOf(byId("picture"));
    for (const it of document.querySelectorAll("#picture :is(.node, .token, .entry, .answer)")) {
      const box = rectOf(it);
      if (!isWithin(box, picture) || covers.some(other => areMet(other, box))) wrong.push(`${at}: ${it.textContent}`);
    }
  }
  return wrong;
}

// Moves behind which nodes are outside of the picture and no map shows where.
function mapFaults(places) {
  const wrong = [];
  for (const at of places) {
    walk.show(at);
    const picture = rectOf(byId("picture"));
    const isOut = [...document.querySelectorAll("#picture .node rect")].some(it => !isWithin(rectOf(it), picture));
    if (picture.width > 500 && isOut && !isSeen(byId("map"))) wrong.push(`${at}: no map`);
  }
  return wrong;
}

// What is wrong on the wall behind each of so many moves: letters below 1/36 of the window's height, texts that meet, a card that hides a
// token or is hidden, a token that is told and not seen, a sentence or a list that is cut off, forks and stacks that aren't there.
async function wallFaults(places) {
  const wrong = [];
  const [rect, over, within] = [rectOf, areMet, isWithin];
  const shown = query => [...document.querySelectorAll(query)].filter(it => it.getClientRects().length > 0 && it.textContent.trim());
  for (const at of places) {
    walk.show(at);
    await settled();
    const fault = text => wrong.push(`${at}: ${text}`);
    const least = Math.min(...shown("#picture :is(text, tspan), #told *, #program").map(it =>
      parseFloat(getComputedStyle(it).fontSize) * (it.getScreenCTM ? it.getScreenCTM().d : 1)));
    if (least < leastLetter()) fault(`letters of ${least.toFixed(1)} px`);
    const labels = shown("#picture .label").map(it => [it.textContent, rect(it)]);
    labels.forEach(([text, one], place) => {
      for (const [other, two] of labels.slice(place + 1)) if (over(one, two)) fault(`text ${text} meets ${other}`);
    });
    const picture = rect(byId("picture"));
    const covers = [...document.querySelectorAll("#net .tools, #map, #chain")].filter(it => it.getClientRects().length > 0).map(rect);
    const tokens = [...document.querySelectorAll("#picture .token")]
      .map(it => [it.querySelector(".tag").textContent, rect(it.children[1])]);
    const card = document.querySelector("#picture .card");
    const move = walk.view.run.lastMove();
    const told = move && move.after ? String(move.ticket) : null;
    for (const [ticket, box] of tokens) {
      if (card && over(box, rect(card))) fault(`the card and token ${ticket}`);
      if (ticket === told && (!within(box, picture) || covers.some(it => over(it, box)))) fault(`token ${ticket} isn't seen`);
    }
    if (told !== null && !card) fault("no card");
    if (card && (!within(rect(card), picture) || covers.some(it => over(it, rect(card))))) fault("the card isn't seen");
    const line = byId("told");
    if (line.scrollHeight > line.clientHeight + 1 || line.scrollWidth > line.clientWidth + 1) fault("the sentence is cut off");
    if (document.documentElement.scrollHeight > innerHeight + 1) fault("the page is higher than the window");
    const bottom = rect(document.querySelector("footer")).bottom;
    const cut = shown("#told > *, #told span, #wall-program, footer button, #count")
      .filter(it => rect(it).bottom > bottom || rect(it).right > innerWidth);
    for (const it of cut) fault(`cut off: ${it.textContent.slice(0, 20)}`);
    const { open } = walk.view.run.state;
    const forks = byId("told-forks");
    if (forks.hidden !== (open.size === 0) || (open.size > 0 && !forks.textContent.includes(`(${open.size})`))) fault("open forks");
    if (move && byId("told-stacks").textContent === "") fault("stacks");
    const mark = document.querySelector("#program .at:not(.broad)");
    const own = rect(byId("program"));
    if (mark && (rect(mark).top < own.top - 1 || rect(mark).top + 20 > own.bottom)) fault("the mark in the program");
  }
  return wrong;
}

// On the wall, behind so many moves: the states in which a live token isn't in the window though all of them would have room there, and how
// many states with several tokens were looked at.
function wallTokens(places) {
  const wrong = [];
  let crowds = 0;
  const { width, height } = byId("picture").getBoundingClientRect();
  const tools = document.querySelector("#net .tools").getBoundingClientRect();
  for (const at of places) {
    walk.show(at);
    const glyphs = [...document.querySelectorAll("#picture .token")];
    if (glyphs.length < 2) continue;
    crowds++;
    const spots = glyphs.map(it => it.transform.baseVal[0].matrix).map(({ e, f }) => [e, f]);
    const wide = axis => Math.max(...spots.map(it => it[axis])) - Math.min(...spots.map(it => it[axis]));
    const scale = innerHeight / 36 / 17;
    if ((wide(0) + 150) * scale > width || (wide(1) + 150) * scale > height) continue;
    const { x, y, scale: own } = walk.camera;
    for (const [e, f] of spots) {
      const [left, top] = [e * own + x, f * own + y];
      const isCovered = left > tools.left && top < tools.bottom;
      if (left < 0 || left > width || top < 0 || top > height || isCovered) wrong.push([at, Math.round(left), Math.round(top)]);
    }
  }
  return [wrong, crowds];
}

// What of the picture isn't seen at a stop of the tour: nodes, tokens, what is kept beside nodes, the answer, and the buttons.
function tourFaults() {
  const seen = it => {
    const { left, right, top, bottom } = it.getBoundingClientRect();
    const places = [[left + 2, top + 2], [right - 2, top + 2], [left + 2, bottom - 2], [right - 2, bottom - 2]];
    return [...places, [(left + right) / 2, (top + bottom) / 2]].every(([x, y]) => {
      const found = document.elementFromPoint(x, y);
      return found && (it.contains(found) || (it.closest("#picture") !== null && found.closest("#picture") !== null));
    });
  };
  const buttons = ["play", "tour-on", "tour-end"].map(byId);
  const parts = [...document.querySelectorAll("#picture :is(.node, .token, .entry, .answer)"), ...buttons];
  const wrong = parts.filter(it => !seen(it)).map(it => it.id || it.textContent);
  return byId("tour").scrollHeight > byId("tour").clientHeight + 1 ? [...wrong, "the words are cut off"] : wrong;
}

// The run in rounds: its trace, where each round begins, and what the page says of their number.
function rounds() {
  const { alone } = walk.view;
  const { text, starts } = walk.inRounds(alone.run);
  return [text, starts, [alone.questions.span.rounds, alone.questions.span.most]];
}

// Nodes whose words are wider than they are.
function wideNodes() {
  const width = (node, tag) => node.querySelector(tag).getBBox().width;
  return [...document.querySelectorAll("#picture .node")].filter(it => width(it, "text") > width(it, "rect") - 4).map(it => it.textContent);
}

// What of the left column isn't in sight behind so many moves: what is said of the move from its first line on, and the stacks.
function columnFaults(at) {
  walk.show(at);
  const rect = it => it.getBoundingClientRect();
  const left = rect(byId("left"));
  const bottom = Math.min(left.bottom, rect(document.querySelector("footer")).top);
  const parts = [...byId("say").children, byId("stacks")].filter(it => it.textContent.trim());
  const wrong = parts.filter(it => rect(it).top < left.top || rect(it).bottom > bottom + 1).map(it => it.textContent.slice(0, 30));
  const texts = [...byId("say").children, byId("stacks-box"), byId("row"), byId("waiting-box"), byId("steps-box")].filter(it => isSeen(it) && it.textContent.trim());
  texts.forEach((one, place) => {
    for (const two of texts.slice(place + 1)) if (areMet(rect(one), rect(two))) wrong.push(`${one.textContent.slice(0, 20)} meets ${two.textContent.slice(0, 20)}`);
  });
  return wrong;
}

// The row of the trace that is marked, where it isn't whole in its box.
function traceFaults() {
  const box = rectOf(byId("trace-rows"));
  const row = document.querySelector("#trace-rows .present");
  if (!row) return ["no row is marked"];
  return rectOf(row).top >= box.top && rectOf(row).bottom <= box.bottom ? [] : [`${rectOf(row).top} to ${rectOf(row).bottom} in ${box.top} to ${box.bottom}`];
}

// What isn't as it is to be while somebody guesses: the form outside of the window or cut off, a token or a node that it covers, a picture
// that is too low; on the wall letters below 1/36 of the window's height.
function guessFaultsSeen() {
  const rect = it => it.getBoundingClientRect();
  const [form, picture, footer] = [byId("guess"), byId("picture"), document.querySelector("footer")];
  const wrong = [];
  const bottom = walk.view.wall && rect(footer).left > 0 ? innerHeight : rect(footer).top;
  if (rect(form).bottom > bottom + 1 || form.scrollHeight > form.clientHeight + 1) wrong.push("the form is cut off");
  if (rect(form).top < rect(picture).bottom - 1) wrong.push("the form is on the picture");
  if (rect(picture).height < 0.35 * innerHeight) wrong.push(`the picture has ${rect(picture).height} px`);
  for (const it of form.querySelectorAll("input, select, button, p")) {
    if (rect(it).right > innerWidth || rect(it).left < 0) wrong.push(`outside: ${it.id}`);
    if (walk.view.wall && it.matches("p") && parseFloat(getComputedStyle(it).fontSize) < innerHeight / 36 - 0.1) wrong.push(`small: ${it.id}`);
  }
  const nodes = [...document.querySelectorAll("#picture .node rect")];
  if (!walk.view.wall && nodes.some(it => !isWithin(rect(it), rect(picture)))) wrong.push("a node isn't seen");
  const token = document.querySelector("#picture .token");
  if (rect(token).bottom > rect(picture).bottom || rect(token).top < rect(picture).top) wrong.push("the token isn't seen");
  if (!byId("guess-said").textContent.startsWith("Not so")) wrong.push("nothing is said");
  return wrong;
}
