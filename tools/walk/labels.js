// Where the text beside each wire is put: just below the node that the wire leaves, on the side where it meets the least.

const LABEL = { cell: 24, search: 4000 };

// What a point belongs to that is no wire's.
const NODE = -1, TEXT = -2;

// {x, y, anchor} for each wire.
function placeLabels(net, layout, types) {
  const crowd = net.nodes.length <= LABEL.search ? new Crowd(layout) : null;
  return net.wires.map(wire => {
    const width = wireText(wire, types).length * layout.sizes.letter;
    const choices = labelChoices(net, layout, wire, types);
    if (!crowd) return choices[0];
    let best = null;
    for (const choice of choices) {
      choice.cost += crowd.count(boxOf(choice, width, layout.sizes), wire.id);
      if (!best || choice.cost < best.cost) best = choice;
    }
    crowd.addBox(boxOf(best, width, layout.sizes), TEXT);
    return best;
  });
}

function labelChoices(net, layout, wire, types) {
  const [start, next] = layout.points[wire.id];
  const { gap, label } = layout.sizes;
  const siblings = net.nodes[wire.above].down;
  const outerLeft = siblings.length > 1 ? siblings.indexOf(wire.id) === 0 : next[0] > start[0] + 30 && !types;
  const choices = [];
  for (const [late, share] of (types ? [0.12, 0.2, 0.3] : [0.2, 0.13, 0.3, 0.45]).entries()) {
    for (const left of [outerLeft, !outerLeft]) {
      const y = curvePoint(start, next, share)[1] + Math.round(label * 0.36);
      const x = wireEdge(start, next, y, left, label) + (left ? -gap : gap);
      const side = left === outerLeft ? 0 : 4;
      choices.push({ x, y, anchor: left ? "end" : "start", cost: late * 2 + side });
    }
  }
  return choices;
}

// How far a wire comes to the left, or to the right, where a text with this base line is beside it.
function wireEdge(start, next, y, left, tall) {
  let far = null;
  for (let share = 0; share <= 1; share += 0.02) {
    const [x, height] = curvePoint(start, next, share);
    if (height < y - tall || height > y + tall * 0.3) continue;
    if (far === null || (left ? x < far : x > far)) far = x;
  }
  return far === null ? start[0] : far;
}

const boxOf = (choice, width, { label }) => {
  const left = choice.anchor === "end" ? choice.x - width : choice.x;
  return { left: left - 5, right: left + width + 5, top: choice.y - label + 1, bottom: choice.y + 3 };
};

// Points of everything that is drawn, by cells of a grid, so that what a box meets is found at once.
class Crowd {
  constructor(layout) {
    this.cells = new Map();
    layout.points.forEach((points, wire) => {
      for (let at = 1; at < points.length; at++) {
        const steps = Math.max(1, Math.ceil(Math.hypot(points[at][0] - points[at - 1][0], points[at][1] - points[at - 1][1]) / 6));
        for (let step = 0; step < steps; step++) this.add(...curvePoint(points[at - 1], points[at], step / steps), wire);
      }
    });
    const half = layout.sizes.nodeHeight / 2;
    for (const { x, y, width } of layout.places) {
      this.addBox({ left: x - width / 2, right: x + width / 2, top: y - half, bottom: y + half }, NODE);
    }
  }

  add(x, y, wire) {
    const key = Math.floor(x / LABEL.cell) * 1000003 + Math.floor(y / LABEL.cell);
    const cell = this.cells.get(key);
    if (cell) cell.push(x, y, wire); else this.cells.set(key, [x, y, wire]);
  }

  // (both edges of a box have points, so that two texts side by side keep their distance)
  addBox({ left, right, top, bottom }, what) {
    const across = Math.max(1, Math.ceil((right - left) / 6)), down = Math.max(1, Math.ceil((bottom - top) / 5));
    for (let column = 0; column <= across; column++) {
      for (let row = 0; row <= down; row++) this.add(left + (right - left) * column / across, top + (bottom - top) * row / down, what);
    }
  }

  // What a box meets: each point of another wire or of a node counts ten, of another text thirty, of its own wire one.
  count({ left, right, top, bottom }, own) {
    let count = 0;
    for (let column = Math.floor(left / LABEL.cell); column <= Math.floor(right / LABEL.cell); column++) {
      for (let row = Math.floor(top / LABEL.cell); row <= Math.floor(bottom / LABEL.cell); row++) {
        const cell = this.cells.get(column * 1000003 + row) || [];
        for (let at = 0; at < cell.length; at += 3) {
          const [x, y, wire] = [cell[at], cell[at + 1], cell[at + 2]];
          if (x >= left && x <= right && y >= top && y <= bottom) count += wire === own ? 1 : wire === TEXT ? 30 : 10;
        }
      }
    }
    return count;
  }
}
