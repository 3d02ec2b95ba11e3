// Tries the extension without VS Code: node editors/vscode/try.js PROGRAM [WORD ..] starts the language server PROGRAM
// through it, with a stand-in for the editor's module `vscode`, and prints what came. The status is 1 where something isn't
// as it should be.
"use strict";
const Module = require("module");
const assert = require("assert");

const [server, ...words] = process.argv.slice(2);
const event = () => {
  const acts = [];
  return {on: act => { acts.push(act); return {dispose() {}}; }, fire: it => acts.forEach(act => act(it))};
};
const [opens, changes, closes, saves] = [event(), event(), event(), event()];
const providers = {}, marks = new Map(), said = [];
const register = name => (selector, provider) => { providers[name] = provider; return {dispose() {}}; };
const plain = (...names) => class { constructor(...values) { names.forEach((name, at) => { this[name] = values[at]; }); } };
class Position { constructor(line, character) { Object.assign(this, {line, character}); } }
class Range { constructor(a, b, c, d) { this.start = new Position(a, b); this.end = new Position(c, d); } }
class WorkspaceEdit { constructor() { this.edits = []; } replace(uri, range, text) { this.edits.push([uri, range, text]); } }
const Uri = {parse: text => ({toString: () => text})};
const documents = [];
const editor = {
  Position, Range, WorkspaceEdit, Uri, Hover: plain("contents", "range"), Location: plain("uri", "range"),
  Diagnostic: plain("range", "message", "severity"), DocumentSymbol: plain("name", "detail", "kind", "range", "selectionRange"),
  TextEdit: plain("range", "newText"), CompletionItem: plain("label", "kind"), CompletionList: plain("items", "isIncomplete"),
  CodeAction: plain("title", "kind"), CodeActionKind: {Source: {value: "source"}, QuickFix: {value: "quickfix"}},
  MarkdownString: plain("value"), SemanticTokens: plain("data"), SemanticTokensLegend: plain("types", "modifiers"),
  window: {showWarningMessage: text => said.push(text), showInformationMessage: text => said.push(text)},
  workspace: {
    textDocuments: documents, getConfiguration: () => ({get: name => ({server, arguments: words})[name]}),
    onDidOpenTextDocument: opens.on, onDidChangeTextDocument: changes.on, onDidCloseTextDocument: closes.on,
    onDidSaveTextDocument: saves.on,
  },
  commands: {registerCommand: (name, act) => { providers[name] = act; return {dispose() {}}; }},
  languages: {
    createDiagnosticCollection: () => ({set: (uri, made) => marks.set(`${uri}`, made), delete: uri => marks.delete(`${uri}`),
                                        clear: () => marks.clear()}),
    registerHoverProvider: register("hover"), registerDefinitionProvider: register("definition"),
    registerReferenceProvider: register("references"), registerDocumentSymbolProvider: register("symbols"),
    registerDocumentFormattingEditProvider: register("formatting"), registerCompletionItemProvider: register("completion"),
    registerRenameProvider: register("rename"), registerCodeActionsProvider: register("actions"),
    registerDocumentSemanticTokensProvider: register("colours"), registerDocumentRangeSemanticTokensProvider: register("parts"),
  },
};
const load = Module._load;
Module._load = (name, ...more) => name === "vscode" ? editor : load(name, ...more);
const extension = require("./extension.js");

let count = 0;
function is(what, came, wanted) {
  count += 1;
  console.log(`${what}: ${JSON.stringify(came)}`);
  assert.deepStrictEqual(JSON.parse(JSON.stringify(came)), wanted, what);
}
async function until(what, test) {
  for (let at = 0; at < 1200; at += 1) {
    const found = test();
    if (found) return found;
    await new Promise(done => setTimeout(done, 100));
  }
  throw new Error(`${what} didn't come`);
}

const TEXT = "# é𝄞 before a name\nproc add(x, y) {\n  return x + y;\n}\nproc main() {\n  var total;\n  total = add(total, 2);\n" +
             "  print totl;\n}\n";
async function main() {
  const uri = Uri.parse("file:///work/try.job");
  const document = {uri, languageId: "wsjob", version: 1, text: TEXT, getText() { return this.text; }};
  documents.push(document);
  const context = {subscriptions: []};
  await extension.activate(context);
  const found = await until("a diagnostic", () => (marks.get(`${uri}`) || []).length && marks.get(`${uri}`));
  is("diagnostic", [found[0].range.start, found[0].code], [{line: 7, character: 8}, "unknown"]);
  const token = {onCancellationRequested() {}};
  const at = (line, character) => new Position(line, character);
  const hover = await providers.hover.provideHover(document, at(6, 11), token);
  is("hover", hover.contents.value.split("\n")[1], "proc add(x, y)");
  const there = await providers.definition.provideDefinition(document, at(6, 11), token);
  is("definition", there.map(it => it.range.start), [{line: 1, character: 5}]);
  const uses = await providers.references.provideReferences(document, at(5, 7), {includeDeclaration: true}, token);
  is("references", uses.map(it => it.range.start.line), [5, 6, 6]);
  const tree = await providers.symbols.provideDocumentSymbols(document, token);
  is("symbols", tree.map(it => [it.name, it.children.length]), [["add", 2], ["main", 1]]);
  const list = await providers.completion.provideCompletionItems(document, at(7, 8), token);
  is("completion has total", list.items.some(it => it.label === "total"), true);
  const fixes = await providers.actions.provideCodeActions(document, found[0].range, {diagnostics: found}, token);
  is("code action", fixes.map(it => [it.title, it.edit.edits[0][2]]), [["write `total`", "total"]]);
  const edit = await providers.rename.provideRenameEdits(document, at(5, 7), "sum", token);
  is("rename", edit.edits.length, 3);
  const why = await providers.rename.provideRenameEdits(document, at(5, 7), "while", token).catch(fault => fault.message);
  is("rename to a reserved word", why, "`while` is a reserved word");
  const tokens = await providers.colours.provideDocumentSemanticTokens(document, token);
  is("semantic tokens", [tokens.data.length % 5, Array.from(tokens.data.slice(0, 5))], [0, [0, 0, 19, 8, 0]]);
  document.version = 2;
  document.text = TEXT.replace("print totl;", "print   total ;");
  changes.fire({document, contentChanges: [{range: new Range(7, 0, 7, 13), text: "  print   total ;"}]});
  await until("mended text", () => (marks.get(`${uri}`) || [1]).length === 0);
  const printed = await providers.formatting.provideDocumentFormattingEdits(document, {tabSize: 2}, token);
  is("formatted", printed[0].newText.split("\n")[7], "  print total;");
  closes.fire(document);
  await until("no marks", () => !marks.get(`${uri}`) || marks.get(`${uri}`).length === 0);
  await extension.deactivate();
  is("messages", said, []);
  console.log(`${count} looked at, 0 wrong`);
}

main().then(() => process.exit(0), fault => { console.error(fault); process.exit(1); });
