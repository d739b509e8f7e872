// Lists that are gone through by arrow keys. The list has the focus and says which of its rows is the active one; Enter presses that row.
// So a list of sixty rows is one stop of the tab key, and keeps the focus when its rows are made anew.

const ROW_STEPS = { ArrowDown: 1, ArrowUp: -1, Home: -Infinity, End: Infinity };

const rowsOf = list => [...list.querySelectorAll("[data-row]")];
const activeRow = list => list.querySelector("[data-row].active");

function activateRow(list, row) {
  const before = activeRow(list);
  if (before) before.classList.remove("active");
  if (!row) { list.removeAttribute("aria-activedescendant"); return; }
  row.classList.add("active");
  list.setAttribute("aria-activedescendant", row.id);
}

// Puts rows into a list; the active one is named.
function putRows(list, rows, active) {
  list.replaceChildren(...rows);
  rowsOf(list).forEach((row, at) => { row.id = list.id + "-" + at; });
  activateRow(list, active);
  if (active) showInside(list, active);
}

// What an arrow key or Enter does in a list. `look` is told the row that has become the active one.
function joinRows(list, look = () => {}) {
  list.addEventListener("keydown", event => {
    const rows = rowsOf(list);
    const at = rows.indexOf(activeRow(list));
    const by = ROW_STEPS[event.key];
    if (rows.length === 0 || (by === undefined && (event.key !== "Enter" || at < 0))) return;
    event.preventDefault();
    event.stopPropagation();
    if (by === undefined) { rows[at].click(); return; }
    const next = rows[Math.max(0, Math.min(rows.length - 1, at + by))];
    activateRow(list, next);
    showInside(list, next);
    look(next);
  });
}
