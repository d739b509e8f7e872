// Files that the page gives away: a picture of the moment, and a schedule.

function saveFile(name, type, text) {
  const link = element("a", { href: URL.createObjectURL(new Blob([text], { type })), download: name });
  link.click();
  setTimeout(() => URL.revokeObjectURL(link.href), 1000);
}

// The whole net at this moment as SVG that stands alone.
function pictureText() {
  const { run, layout } = view;
  const copy = wholePicture();
  const { top, bottom } = layout.bounds;
  const { left, right } = reach(50);
  // Room for two lines of words below.
  const width = Math.max(right - left, 400);
  const height = bottom - top + 110;
  copy.setAttribute("viewBox", [left, top - 30, width, height].map(Math.round).join(" "));
  copy.setAttribute("width", Math.round(width));
  copy.setAttribute("height", Math.round(height));
  const move = toldMove();
  const when = `${view.name}, after ${movesMade()} of ${run.trace.moves} moves`;
  const last = move ? `${ruleOf(move).title} (ticket ${move.ticket}, node ${move.node})` : "";
  const line = (y, text) => shape("text", { x: left + 10, y: bottom + y, style: "font-size:13px;fill:var(--ink)" }, text);
  copy.prepend(shape("title", {}, when), shape("style", {}, pictureStyle()),
    shape("rect", { x: left, y: top - 30, width, height, style: "fill:var(--bg)" }));
  copy.append(line(46, when), line(65, last));
  // Not every reader of pictures knows the style sheet's variables. An element is a line.
  const text = new XMLSerializer().serializeToString(copy);
  const coloured = text.replaceAll(/var\((--[\w-]+)\)/g, (_, name) => styleValue(name));
  return coloured.replaceAll(/(<\/(?:g|path|rect|text|title|style)>|\/>)(?=<)/g, "$1\n") + "\n";
}

// How far the whole net reaches to either side with so much room beside it, or with what is drawn beside its nodes at this moment.
function reach(room) {
  let { left, right } = view.layout.bounds;
  [left, right] = [left - room, right + room];
  for (const name of ["entries", "piles", "card", "tokens"]) {
    const { x, width } = drawing.layers[name].getBBox();
    if (width > 0) [left, right] = [Math.min(left, x - 8), Math.max(right, x + width + 8)];
  }
  return { left, right };
}

// The net drawn whole, with the tokens and what else changes with the moves as the window has them.
function wholePicture() {
  const { net, layout } = view;
  const { trail, entries, piles, card, tokens } = drawing.layers;
  const groupOf = (list, draw) => {
    const group = shape("g");
    for (const it of list) group.append(draw(it));
    return group;
  };
  const nodes = groupOf(net.nodes, node => drawNode(node, layout.places[node.id]));
  markedNodes.forEach((id, at) => nodes.children[id].classList.add(at === 0 ? "at" : "too"));
  const labels = groupOf(net.wires, wire => drawLabel(wire, drawing.labelPlaces[wire.id]));
  const changing = [entries, piles, card, tokens].map(layer => layer.cloneNode(true));
  return shape("svg", { role: "img", "aria-label": byId("picture").getAttribute("aria-label") },
    groupOf(layout.frames, drawFrame), groupOf(net.wires, wire => drawWire(wire)), trail.cloneNode(true), labels, nodes, ...changing);
}

// The rules of what a picture has.
function pictureStyle() {
  const rules = [...document.styleSheets[0].cssRules];
  const used = /^\.(frame|wire|node|label|trail|token|card|tie|entry|pile|answer)/;
  const drawn = rules.filter(rule => rule.selectorText && used.test(rule.selectorText)).map(rule => rule.cssText);
  return `svg { font-family: system-ui, 'DejaVu Sans', sans-serif; }\n${drawn.join("\n")}\n`;
}

const savePicture = () => saveFile(`${fileStem()}-${movesMade()}.svg`, "image/svg+xml", pictureText());
const saveSwap = () => saveFile(swapName(), "text/plain", swappedSchedule(view.run));
