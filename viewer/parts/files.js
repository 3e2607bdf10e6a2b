// Files.

let complaints = [];

// Adds a line to what is told.
function complain(text) {
  complaints.push(plain(text));
  showMessage(complaints.join("\n"));
}

const isWritten = (name, text) => /^\s*[{\[]/.test(text) || /\.(json|answers|rules)$/.test(name);

function take(name, text) {
  try {
    if (isWritten(name, text)) {
      const written = readJson(text);
      if (isMap(written)) state.map = readMap(written); else keepWritten(written);
    } else if (isTable(text)) state.tables.set(name.split("/").pop(), readTable(text));
    else if (isList(name, text)) state.list = readList(text);
    else state.job = readJob(text);
  } catch (error) {
    complain(`${name}: ${error instanceof RangeError ? "nested too deep" : error.message}`);
  }
}

// Takes a file of the second network of a comparison.
function takeOther(name, text) {
  try {
    if (!isWritten(name, text)) {
      if (!isTable(text)) state.other.job = readJob(text);
      return;
    }
    const written = readJson(text);
    if (!isObject(written) || written.symnet !== 1 || !(Array.isArray(written.records) || Array.isArray(written.walks))) throw new Error("the file is JSON, but no report of the second network");
    state.other.report = checkReport(written);
  } catch (error) {
    complain(`${name}: ${error instanceof RangeError ? "nested too deep" : error.message}`);
  }
}

function begin() {
  complaints = [];
  showMessage("");
  state.chosen = -1;
}

const textsOf = (files) => Promise.all([...files].map(async (file) => [file.name, await file.text()]));

async function takeFiles(files, taking = take) {
  const texts = await textsOf(files);
  begin();
  for (const [name, text] of texts) taking(name, text);
  showAll();
}

// Shows these files, each a name and a text, and those of the second network, in place of all that was shown before.
function showOnly(files, others = []) {
  Object.assign(state, { report: null, answer: null, job: null, map: null, list: null, tables: new Map(), other: { job: null, report: null } });
  begin();
  for (const [name, text] of files) take(name, text);
  for (const [name, text] of others) takeOther(name, text);
  showAll();
}

// What becomes of files that are dropped on the page. The desk has a say of its own.
let takeDropped = takeFiles;

async function takeNamed(words) {
  begin();
  state.chosen = words.has("record") ? Number(words.get("record")) : -1;
  const names = ["job", "map", "list", "table", "report", "answer", "other"].flatMap((key) => words.getAll(key).map((name) => [key, name]));
  for (const [key, name] of names) {
    try {
      const answer = await fetch(name);
      if (!answer.ok) throw new Error(`status ${answer.status}`);
      (key === "other" ? takeOther : take)(name, await answer.text());
    } catch (error) {
      complain(`${name} cannot be read (${error.message}). A page that was opened as a file may not read others: drop the file instead.`);
    }
  }
  if (words.has("filter")) byId("filter").value = words.get("filter");
  showAll();
  document.body.dataset.ready = "yes";
}

document.addEventListener("dragover", (event) => { event.preventDefault(); document.body.classList.add("over"); });
document.addEventListener("dragleave", () => document.body.classList.remove("over"));
document.addEventListener("drop", (event) => { event.preventDefault(); document.body.classList.remove("over"); takeDropped(event.dataTransfer.files); });
byId("report-file").addEventListener("change", (event) => takeFiles(event.target.files));
byId("job-file").addEventListener("change", (event) => takeFiles(event.target.files));
byId("other-file").addEventListener("change", (event) => takeFiles(event.target.files, takeOther));
byId("filter").addEventListener("input", () => { if (state.report) showGroups(); });
takeNamed(new URLSearchParams(location.search));
