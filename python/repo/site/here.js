// The page of ./web: it works without a server. The program, which that of serve.py has called by one, is called by the workers
// themselves, as a module (wsc.js). Beside that page it runs any line of wsc, stops what is at work, and saves files. It comes
// in place of served.js.
window.framePath = "frame.html";
const modules = {};
const OF_A_FILE = "A browser doesn't run this page from a file. Serve its folder: python3 -m http.server -d FOLDER";
// A module that can't be had is asked for anew the next time.
function moduleOf(name) {
  if (location.protocol === "file:") return Promise.reject(Error(OF_A_FILE));
  return modules[name] = modules[name] || import("./wsc.js")
    .then(({load}) => load(new URL(`${name}.wasm`, document.baseURI), {isSoon: name === "wsc"}))
    .catch(fault => { delete modules[name]; throw fault; });
}
// What is at work: the button that stops it is alive meanwhile.
let working = 0;
async function whileWorking(act) {
  $("stop").disabled = !++working;
  try {
    const told = await act();
    window.answeredAt = window.answeredAt || performance.now();
    return told;
  } finally {
    $("stop").disabled = !--working;
  }
}
// What the page asks about a text: a task of a worker (hand.js).
function work(task, args, signal) {
  return whileWorking(async () => (await moduleOf("wsc")).ask(task, args, {signal}));
}
function made(tag, attributes, ...parts) {
  const it = Object.assign(document.createElement(tag), attributes);
  it.append(...parts);
  return it;
}

// The programs of the site; serve.js, which reads the same element, comes behind this script.
const PROGRAMS = JSON.parse(document.getElementById("data").textContent).programs;
// The lines that can be run. Those that read an assembly are given that of a job, `replay` is given a trace.
const LINES = ["run", "plain", "multi", "format", "compile", "check", "list", "exec", "decouple", "grid", "trace", "replay",
  "gen", "bench", ...PROGRAMS.filter(it => it !== "wsc")];
const PLACEHOLDERS = {
  run: "--workers 8 --memory --stats", plain: "--turns 1000 --memory --stats", multi: "--stats", exec: "--workers 8 --stats",
  decouple: "--budget 1000 --stats", grid: "--elements 16 --waves 4 --stats", trace: "--budget 100", gen: "7", bench: "7",
  wss: "--budget 1000 --memory --stats",
};
// Whether a line is one of a program beside wsc.
const isProgram = word => PROGRAMS.includes(word);
// What such a program reads: wsl the draft itself, each other an assembly, of a job that which it compiles to.
const readBy = async (name, text, signal) =>
  name === "wsl" ? text : (await moduleOf("wsc")).ask("saved", [text, "assembly"], {signal});
// A longer answer is cut where it is shown.
const MOST_SHOWN = 100000;
// The tab of a line, with its answer.
function lineTab() {
  const word = made("select", {id: "word", ariaLabel: "command"},
    ...LINES.map(it => new Option(isProgram(it) ? it : `wsc ${it}`, it)));
  const options = made("input", {id: "options", spellcheck: false, autocomplete: "off", autocapitalize: "off", ariaLabel: "options"});
  const told = made("p", {id: "line-told", role: "status"}), out = made("pre", {id: "line-out", tabIndex: 0});
  const form = made("form", {id: "line"}, word, options, made("button", {textContent: "run line"}));
  const hint = () => { options.placeholder = PLACEHOLDERS[word.value] || ""; };
  word.onchange = hint;
  hint();
  form.onsubmit = e => { e.preventDefault(); runLine(word.value, options.value.split(/\s+/).filter(Boolean), told, out); };
  $("tabs").append(made("button", {textContent: "a line of wsc"}));
  $("tabs").lastChild.dataset.tab = "command";
  $("left").append(made("div", {id: "command", className: "tab", hidden: true}, form, told, out));
}
let lineStop = null;
// Runs a line over the text of the editor, and says what it answers; a refusal is marked in the text.
async function runLine(word, options, told, out) {
  if (lineStop) lineStop.abort();
  const stop = lineStop = new AbortController(), text = source.value, begun = performance.now();
  const clock = setInterval(() => { told.textContent = `… ${((performance.now() - begun) / 1000).toFixed(0)} s`; }, 1000);
  told.textContent = "…";
  try {
    const got = await whileWorking(async () => isProgram(word)
      ? (await moduleOf(word)).ask("line", [options, await readBy(word, text, stop.signal)], {signal: stop.signal})
      : (await moduleOf("wsc")).ask("line", [[word, ...options], text], {signal: stop.signal}));
    const all = [got.out + got.err, ...got.said].join("\n").trimEnd();
    told.textContent = `${got.piped}status ${got.status}, ${Math.round(performance.now() - begun)} ms`;
    out.textContent = all.length > MOST_SHOWN ? `${all.slice(0, MOST_SHOWN)}\n… (${all.length} characters in all)` : all;
    if (got.place && source.value === text) showPlace(got.place);
  } catch (fault) {
    if (lineStop !== stop) return;
    told.textContent = fault.name === "AbortError" ? `stopped after ${Math.round(performance.now() - begun)} ms` : fault.message;
    out.textContent = "";
  } finally {
    clearInterval(clock);
  }
}
function showPlace(place) {
  paintMarks([[place.from, Math.max(place.to, place.from + 1), "bad"]]);
  paintNumbers(place.line);
}

// Ends all that is at work.
function stopAll() {
  if (ask) ask.abort();
  if (lineStop) lineStop.abort();
  if (source.value !== current) stale(true);
  state("stopped");
}
// The text, its assembly and its traces as files: `wsc exec` and `wsc replay` take them as they are.
const FILES = [["job", "the text"], ["asm", "its assembly"], ["A.trace", "trace of A"], ["B.trace", "trace of B"]];
async function saveAs(ending) {
  const text = source.value, base = file.replace(/\.(?:job|asm|trace)$/, ""), stop = ask = new AbortController();
  if (ending === "job") { save(); return; }
  const what = ending === "asm" ? "assembly" : orders[ending[0]];
  try {
    const told = await whileWorking(async () => (await moduleOf("wsc")).ask("saved", [text, what], {signal: stop.signal}));
    handOut(told, what === "assembly" ? `${base}.asm` : `${base}-${what}.trace`);
  } catch (fault) {
    state(fault.name === "AbortError" ? "stopped" : fault.message);
  }
}
function handOut(text, name) {
  const link = made("a", {href: URL.createObjectURL(new Blob([text])), download: name});
  link.click();
  state(`saved as ${name}`);
  setTimeout(() => URL.revokeObjectURL(link.href), 1000);
}
const OF_HERE = "In this browser, and nowhere else: what answers is wsc itself, compiled for WebAssembly. It has no threads here, so " +
  "--workers 8 works as on a machine that gives it one. Nothing is sent; a link holds the whole program.";
function controls() {
  const stop = made("button", {id: "stop", textContent: "stop", title: "ends what is at work (Esc)", disabled: true, onclick: stopAll});
  const files = made("details", {id: "files"}, made("summary", {textContent: "save"}), made("div", {}, ...FILES.map(([ending, text]) =>
    made("button", {textContent: text, value: ending, onclick: () => { files.open = false; saveAs(ending); }}))));
  window.addEventListener("click", e => { if (!files.contains(e.target)) files.open = false; });
  files.addEventListener("keydown", e => { if (e.key === "Escape") { files.open = false; files.firstChild.focus(); } });
  $("run").after(stop);
  $("link").after(files, made("a", {id: "lesson", href: "lesson.html", textContent: "lesson", target: "_blank"}));
  $("help").querySelector("table").append(made("tr", {}, made("td", {}, made("kbd", {textContent: "Esc"})), made("td", {textContent: "stop what is at work"})));
  $("help").firstElementChild.append(made("h2", {textContent: "Where it runs"}), made("p", {textContent: OF_HERE}));
  window.addEventListener("keydown", e => { if (e.key === "Escape" && working && !e.isComposing) stopAll(); });
}
lineTab();
controls();
moduleOf("wsc").catch(() => {});
// What a browser has seen once it shows without a network too, where it may keep it (offline.js).
if ("serviceWorker" in navigator) window.addEventListener("load", () => navigator.serviceWorker.register("offline.js").catch(() => {}));
