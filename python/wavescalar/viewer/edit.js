// The editor: a textarea over two layers, one that has the colours of its words, one that has marks.
const $ = id => document.getElementById(id);
const source = $("source"), INDENT = "  ";
const ANY_WORD = "@WORDS@"; // those of jobs and of assemblies: wsc-serve puts them in
const LEXEMES = new RegExp(String.raw`(#[^\n]*)|(^%(?:input|trace|job)$)|\b(\d+)\b|\b(${ANY_WORD})\b`, "gm");
const CLASSES = ["c", "i", "n", "k"];
const safe = text => text.replace(/&/g, "&amp;").replace(/</g, "&lt;");

function coloured(text) {
  let made = "", done = 0;
  for (const found of text.matchAll(LEXEMES)) {
    const kind = CLASSES[found.slice(1).findIndex(it => it !== undefined)];
    made += `${safe(text.slice(done, found.index))}<span class="${kind}">${safe(found[0])}</span>`;
    done = found.index + found[0].length;
  }
  return made + safe(text.slice(done)) + "\n";
}
// Marks are `[from, to, class]`; where two of them lie on each other both classes count.
function marked(text, marks) {
  const places = [...new Set([0, text.length, ...marks.flatMap(it => it.slice(0, 2))])].sort((a, b) => a - b);
  let made = "";
  for (let k = 0; k + 1 < places.length; k++) {
    const [from, to] = [places[k], places[k + 1]];
    const names = marks.filter(it => it[0] <= from && to <= it[1]).map(it => it[2]).join(" ");
    made += names ? `<span class="${names}">${safe(text.slice(from, to))}</span>` : safe(text.slice(from, to));
  }
  return made + "\n";
}
const lineAt = place => source.value.slice(0, place).split("\n").length;
function paintNumbers(bad) {
  const many = source.value.split("\n").length;
  $("numbers").innerHTML = Array.from({length: many}, (_, k) => k + 1 === bad ? `<b>${k + 1}</b>` : k + 1).join("\n");
}
function paintText() {
  $("paint").innerHTML = coloured(source.value);
}
function paintMarks(marks) {
  $("marks").innerHTML = marked(source.value, marks);
}
// Replaces a part of the text such that the browser can take it back.
function replace(from, to, text) {
  source.setSelectionRange(from, to);
  const done = text ? document.execCommand("insertText", false, text) : document.execCommand("delete");
  if (!done) {
    source.setRangeText(text, from, to, "end");
    source.dispatchEvent(new Event("input"));
  }
}
// The lines that the selection touches: where they begin and end.
function lines() {
  const text = source.value, from = text.lastIndexOf("\n", source.selectionStart - 1) + 1;
  const end = source.selectionEnd > source.selectionStart && text[source.selectionEnd - 1] === "\n"
    ? source.selectionEnd - 1 : source.selectionEnd;
  const to = text.indexOf("\n", end);
  return [from, to < 0 ? text.length : to];
}
function eachLine(change) {
  const [from, to] = lines(), one = source.selectionStart === source.selectionEnd, caret = source.selectionStart;
  const old = source.value.slice(from, to), made = old.split("\n").map(change).join("\n");
  if (made === old) return;
  replace(from, to, made);
  if (one) source.setSelectionRange(...Array(2).fill(Math.max(from, caret + made.length - old.length)));
  else source.setSelectionRange(from, from + made.length);
}
function indent(back) {
  if (!back && source.selectionStart === source.selectionEnd) {
    replace(source.selectionStart, source.selectionEnd, INDENT);
    return;
  }
  eachLine(line => back ? line.replace(/^( {1,2}|\t)/, "") : line && INDENT + line);
}
function comment() {
  const [from, to] = lines(), all = source.value.slice(from, to).split("\n").filter(it => it.trim());
  const off = all.every(it => /^\s*#/.test(it));
  eachLine(line => !line.trim() ? line : off ? line.replace(/^(\s*)# ?/, "$1") : line.replace(/^(\s*)/, "$1# "));
}
function newLine() {
  const at = source.selectionStart, front = source.value.slice(source.value.lastIndexOf("\n", at - 1) + 1, at);
  const deeper = /\{\s*(#.*)?$/.test(front) ? INDENT : "";
  replace(at, source.selectionEnd, "\n" + /^\s*/.exec(front)[0] + deeper);
}
// A brace that closes goes back to where its block began.
function closing() {
  const at = source.selectionStart, begin = source.value.lastIndexOf("\n", at - 1) + 1;
  const front = source.value.slice(begin, at);
  if (source.selectionEnd !== at || !front || front.trim()) return false;
  replace(Math.max(begin, at - INDENT.length), at, "}");
  return true;
}
let leaving = false;
function editKey(e) {
  const ctrl = e.ctrlKey || e.metaKey, wasLeaving = leaving;
  if (e.key !== "Shift") leaving = e.key === "Escape";
  const does = act => { e.preventDefault(); act(); };
  if (e.isComposing) return;
  if (e.key === "Tab" && !ctrl && !e.altKey && !wasLeaving) does(() => indent(e.shiftKey));
  else if (e.key === "Enter" && !ctrl && !e.altKey && !e.shiftKey) does(newLine);
  else if (ctrl && e.key === "/") does(comment);
  else if (e.key === "}" && closing()) e.preventDefault();
}
source.addEventListener("keydown", editKey);
// For fingers, the signs that their keyboards hide.
for (const sign of "{}[]();=+-*<>%#") {
  const it = document.createElement("button");
  it.textContent = sign;
  it.onpointerdown = e => { e.preventDefault(); replace(source.selectionStart, source.selectionEnd, sign); };
  $("symbols").append(it);
}
