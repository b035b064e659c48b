"use strict";
// Only what is shown changes here; what the page says stands in it without this script too.
const told = document.getElementById("told");
const dialog = document.querySelector("dialog");

// The rows of its table that a cell or a band is about. Where they are many, their list stands elsewhere.
function rowsOf(place) {
  const table = document.getElementById(place.closest("[data-table]").dataset.table);
  const told = place.dataset.r || "";
  const list = told.startsWith("#") ? document.getElementById(told.slice(1)).dataset.r : told;
  return list.split(" ").filter(Boolean).map((number) => table.tBodies[0].rows[Number(number)]);
}

function inWords(row) {
  return [...row.cells].slice(1).map((cell) => cell.textContent.trim()).filter(Boolean).join(" · ");
}

function tell(place) {
  const rows = rowsOf(place);
  const lines = [place.ariaLabel || place.textContent, ...rows.slice(0, 3).map(inWords)];
  if (rows.length > 3) lines.push(`and ${rows.length - 3} more rows: press Enter`);
  told.replaceChildren(...lines.map((line, at) => {
    const part = document.createElement(at ? "div" : "strong");
    part.textContent = line;
    return part;
  }));
}

function show(place) {
  const table = document.createElement("table");
  const source = document.getElementById(place.closest("[data-table]").dataset.table);
  table.append(source.tHead.cloneNode(true));
  const body = table.createTBody();
  for (const row of rowsOf(place)) {
    const copy = row.cloneNode(true);
    copy.hidden = false;
    copy.removeAttribute("id");
    body.append(copy);
  }
  dialog.querySelector("h2").textContent = place.ariaLabel || place.textContent;
  dialog.querySelector("div").replaceChildren(body.rows.length ? table : "No row is about it.");
  dialog.showModal();
}

const isPlace = (part) => part.matches?.(".cells button, .band");
for (const name of ["mouseover", "focusin"]) {
  document.addEventListener(name, (event) => { if (isPlace(event.target)) tell(event.target); });
}
document.addEventListener("click", (event) => { if (isPlace(event.target)) show(event.target); });

// One cell of a map is reached by Tab, the others by the arrows, Home and End.
function next(cells, at, key) {
  const wide = cells.findIndex((cell) => cell.offsetTop > cells[0].offsetTop);
  const line = wide < 0 ? cells.length : wide;
  return { ArrowRight: at + 1, ArrowLeft: at - 1, ArrowDown: at + line, ArrowUp: at - line, Home: 0, End: cells.length - 1 }[key];
}
document.addEventListener("keydown", (event) => {
  const map = event.target.closest?.(".cells");
  if (!map) return;
  const cells = [...map.children];
  const to = cells[next(cells, cells.indexOf(event.target), event.key)];
  if (!to) return;
  event.preventDefault();
  event.target.tabIndex = -1;
  to.tabIndex = 0;
  to.focus();
});

// Rows are left out that don't have the words that are searched for, or none of the marks that are chosen.
function filter(tools) {
  const table = document.getElementById(tools.dataset.for);
  const words = tools.querySelector("input[type=search]").value.toLowerCase().split(/\s+/).filter(Boolean);
  const marks = new Set([...tools.querySelectorAll("input:checked")].map((box) => box.value));
  let count = 0;
  for (const row of table.tBodies[0].rows) {
    const text = row.textContent.toLowerCase();
    row.hidden = !(marks.has(row.dataset.e) && words.every((word) => text.includes(word)));
    count += !row.hidden;
  }
  tools.querySelector("output").textContent = `${count} of ${table.tBodies[0].rows.length} rows`;
}
for (const tools of document.querySelectorAll(".tools")) {
  tools.hidden = false;
  tools.addEventListener("input", () => filter(tools));
  filter(tools);
}
