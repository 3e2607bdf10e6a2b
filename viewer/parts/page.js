// The page.

// What was read: a report or walks, an answer with what it says of the other files (`joined`), a job, the map of one that was imported, a filter list, tables by their names; and of the second
// network of a comparison its job and its report or walks.
const state = { report: null, answer: null, job: null, map: null, list: null, tables: new Map(), other: { job: null, report: null },
  // the groups of records: their names with those that are open, how many rows of each are shown, and the names of records that were made
  groups: [], open: new Set(), chosen: -1, shown: new Map(), names: new Map() };
const byId = (id) => document.getElementById(id);

function element(tag, attributes, ...children) {
  const made = document.createElement(tag);
  for (const [name, value] of Object.entries(attributes || {})) {
    if (name === "click") made.addEventListener("click", value); else made.setAttribute(name, value);
  }
  for (const child of children) made.append(child);
  return made;
}

function showMessage(text) {
  byId("message").textContent = text;
  byId("message").style.display = text === "" ? "none" : "block";
}

// Characters that a terminal or a browser obeys in place of showing them: controls, and marks of direction.
const UNSEEN = /[\u0000-\u001f\u007f-\u009f\u061c\u200e\u200f\u2028-\u202e\u2066-\u2069]/g;
const MOST_SHOWN = 500;

// A text of a file, or its name, as it may stand in a line.
function plain(text, most = MOST_SHOWN) {
  const shown = text.replace(UNSEEN, "?");
  return shown.length > most ? `${shown.slice(0, most - 1)}\u2026` : shown;
}
