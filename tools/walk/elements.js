// Short ways to make elements and to find the page's own. The names of SVG are taken from the page's picture, so that no address stands
// in the page.

const byId = id => document.getElementById(id);
const SVG_NAMES = byId("picture").namespaceURI;

function filled(made, attributes, children) {
  for (const name in attributes) made.setAttribute(name, attributes[name]);
  made.append(...children);
  return made;
}

// An element of a picture.
function shape(tag, attributes = {}, ...children) {
  return filled(document.createElementNS(SVG_NAMES, tag), attributes, children);
}

// An element of the page.
function element(tag, attributes = {}, ...children) {
  return filled(document.createElement(tag), attributes, children);
}

// The beginning of a text that would be cut anyway: laying out a stack of ten thousand letters takes longer than all the rest.
const BRIEF = 60;
const brief = text => text.length > BRIEF ? text.slice(0, BRIEF) + "…" : text;

// Scrolls a box so that the first line of what is inside it can be seen.
function showInside(box, inner) {
  if (box.scrollHeight <= box.clientHeight) return;
  const { top, bottom } = inner.getBoundingClientRect();
  const own = box.getBoundingClientRect();
  const line = parseFloat(getComputedStyle(box).lineHeight) || 22;
  if (top < own.top || Math.min(bottom, top + line) > own.bottom) box.scrollTop += top - own.top - box.clientHeight / 2;
}

// The value of one of the style sheet's variables, in the theme that is shown.
const styleValue = name => getComputedStyle(document.documentElement).getPropertyValue(name).trim();

// A canvas of so many pixels of the page, sharp on every screen, and its brush.
function sizedCanvas(canvas, width, height) {
  const ratio = devicePixelRatio || 1;
  canvas.width = Math.round(width * ratio);
  canvas.height = Math.round(height * ratio);
  const brush = canvas.getContext("2d");
  brush.scale(ratio, ratio);
  return brush;
}
