"use strict";
// Runs in a page that is tested, and writes into it what is wrong, for each check.
const found = {};
const violations = [];
document.addEventListener("securitypolicyviolation", (event) => violations.push(event.violatedDirective));
const press = (target, key) => target.dispatchEvent(new KeyboardEvent("keydown", { key, bubbles: true, cancelable: true }));

function luminance(colour) {
  const parts = colour.match(/[\d.]+/g).slice(0, 3).map((part) => part / 255);
  const linear = parts.map((part) => (part <= 0.04045 ? part / 12.92 : ((part + 0.055) / 1.055) ** 2.4));
  return 0.2126 * linear[0] + 0.7152 * linear[1] + 0.0722 * linear[2];
}

// The colour behind an element: that of the nearest one around it that has any.
function behind(element) {
  for (let at = element; at; at = at.parentElement) {
    const colour = getComputedStyle(at).backgroundColor;
    if (!/, 0\)$/.test(colour)) return colour;
  }
  return "rgb(255, 255, 255)";
}

function contrast(element) {
  const [light, dark] = [getComputedStyle(element).color, behind(element)].map(luminance).sort((a, b) => b - a);
  return (light + 0.05) / (dark + 0.05);
}

function pale() {
  const all = [...document.querySelectorAll("h1, h2, h3, h4, p, li, td, th, label, output, summary, code, pre, span, button")];
  const bad = all.filter((element) => element.textContent.trim() && contrast(element) < 4.5);
  return bad.slice(0, 3).map((element) => `${element.tagName}.${element.className} ${contrast(element).toFixed(2)}`).join(", ");
}

function nameless() {
  const controls = [...document.querySelectorAll("button, input")];
  const bad = controls.filter((one) => !(one.ariaLabel || one.textContent.trim() || one.closest("label")?.textContent.trim()));
  return bad.length ? `${bad.length} of ${controls.length}` : "";
}

function skipped() {
  const levels = [...document.querySelectorAll("h1, h2, h3, h4")].filter((one) => !one.closest("dialog")).map((one) => Number(one.tagName[1]));
  const at = levels.findIndex((level, place) => level > (place ? levels[place - 1] : 0) + 1);
  return at < 0 && levels[0] === 1 ? "" : `heading ${at} of ${levels}`;
}

// A page with cells: the focus shows one, a click opens its rows, and keys walk from one to the next.
function cells() {
  const map = document.querySelector(".cells");
  if (!map) return;
  const [first, second] = map.children;
  const last = map.children[map.children.length - 1];
  first.focus();
  first.dispatchEvent(new FocusEvent("focusin", { bubbles: true }));
  found["the focus tells of a cell"] = document.getElementById("told").textContent.startsWith(first.ariaLabel) ? "" : "it doesn't";
  press(first, "ArrowRight");
  found["an arrow moves on"] = document.activeElement === second && second.tabIndex === 0 && first.tabIndex === -1 ? "" : "it doesn't";
  press(second, "End");
  found["End moves to the last"] = document.activeElement === last ? "" : "it doesn't";
  press(last, "Home");
  found["Home moves to the first"] = document.activeElement === first ? "" : "it doesn't";
  found["one cell of a map is reached by Tab"] = map.querySelectorAll('[tabindex="0"]').length === 1 ? "" : "not one";
  const some = [...document.querySelectorAll(".cells button")].find((cell) => cell.dataset.r) ?? first;
  some.click();
  const dialog = document.querySelector("dialog");
  const rows = dialog.querySelectorAll("tbody tr").length;
  const told = some.dataset.r || "";
  const list = told.startsWith("#") ? document.getElementById(told.slice(1)).dataset.r : told;
  const due = list.split(" ").filter(Boolean).length;
  found["a click opens the rows"] = dialog.open && rows === due ? "" : `${dialog.open} ${rows} of ${due}`;
  found["the dialog says what it is about"] = dialog.querySelector("h2").textContent === some.ariaLabel ? "" : "it doesn't";
  dialog.close();
}

// A page with a table: it is searched and filtered.
function tables() {
  for (const tools of document.querySelectorAll(".tools")) {
    const body = document.getElementById(tools.dataset.for).tBodies[0];
    const count = () => [...body.rows].filter((row) => !row.hidden).length;
    const send = (input) => input.dispatchEvent(new Event("input", { bubbles: true }));
    const search = tools.querySelector("input[type=search]");
    if (!body.rows.length) continue;
    const told = () => tools.querySelector("output").textContent;
    found["all rows are shown first"] = count() === body.rows.length && told() === `${count()} of ${count()} rows` ? "" : told();
    search.value = "no such word at all";
    send(search);
    found["a search hides the others"] = count() === 0 && told().startsWith("0 of ") ? "" : told();
    search.value = "";
    send(search);
    const box = tools.querySelector("input[type=checkbox]");
    const due = [...body.rows].filter((row) => row.dataset.e !== box.value).length;
    box.checked = false;
    send(box);
    found["a mark that isn't chosen is hidden"] = count() === due ? "" : `${count()}, not ${due}`;
    box.checked = true;
    send(box);
  }
}

try {
  cells();
  tables();
  found["texts can be read"] = pale();
  found["controls have names"] = nameless();
  found["no heading is left out"] = skipped();
  const [width, light] = location.hash.slice(1).split(",");
  const isDark = luminance(behind(document.body)) < 0.2;
  found["the screen is as asked"] = innerWidth === Number(width) && isDark === (light === "dark") ? "" : `${innerWidth} ${isDark}`;
  const wide = document.documentElement.scrollWidth - document.documentElement.clientWidth;
  found["nothing stands beyond the edge"] = wide > 0 ? `${wide} pixels` : "";
  found["nothing comes from elsewhere"] = performance.getEntriesByType("resource").map((one) => one.name).join(" ");
} catch (error) {
  found["the probe runs"] = String(error);
}
found["the policy allows what it has to"] = violations.join(" ");
const text = JSON.stringify(found).replaceAll("<", "\\u003c");
if (parent !== window) {
  parent.postMessage(text, "*");
} else {
  const answer = document.createElement("script");
  answer.type = "application/json";
  answer.id = "found";
  answer.textContent = text;
  document.body.append(answer);
}
