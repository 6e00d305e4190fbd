// The client for VS Code under node, with a stand-in for the editor's module: opens a case with a slip, tells its mark and a hint,
// mends it, renames a node and writes it.
"use strict";
const Module = require("module"), fs = require("fs"), path = require("path"), assert = require("assert");
const { TOP, CASE } = process.env;

class Range {
  constructor(line, character, lastLine, lastCharacter) {
    this.start = { line, character };
    this.end = { line: lastLine, character: lastCharacter };
  }
}
// A class whose objects keep what they are made of.
const holder = (...names) => class {
  constructor(...given) { names.forEach((name, at) => { this[name] = given[at]; }); }
};
class WorkspaceEdit {
  constructor() { this.all = []; }
  replace(...one) { this.all.push(one); }
}

const providers = {}, events = {}, marks = new Map();
let text = fs.readFileSync(CASE, "utf8");
const document = { uri: { toString: () => `file://${CASE}` }, languageId: "emtp", version: 1, getText: () => text };
const collection = { set: (uri, found) => marks.set(uri, found), dispose() {} };
const known = (own, other) => new Proxy(own, { get: (it, name) => (name in it ? it[name] : other(name)) });
const vscode = {
  Range, WorkspaceEdit,
  Hover: holder("contents"), MarkdownString: holder("value"), Location: holder("uri", "range"), CodeAction: holder("title", "kind"),
  CompletionItem: holder("label", "kind"), CompletionList: holder("items", "isIncomplete"),
  Diagnostic: holder("range", "message", "severity"), DocumentSymbol: holder("name", "detail", "kind", "range", "selectionRange"),
  FoldingRange: holder("start", "end"), SemanticTokens: holder("data"), SemanticTokensLegend: holder("types"),
  CodeActionKind: { QuickFix: "quickfix" }, Uri: { parse: it => it },
  window: { showErrorMessage: told => { throw new Error(told); } },
  languages: known({ createDiagnosticCollection: () => collection }, () => (select, provider) => {
    Object.assign(providers, provider);
    return { dispose() {} };
  }),
  workspace: known({ textDocuments: [document], getConfiguration: () => ({ get: () => `${TOP}/emtp` }) }, name => call => {
    events[name] = call;
    return { dispose() {} };
  }),
};
const load = Module._load;
Module._load = (name, ...rest) => (name === "vscode" ? vscode : load(name, ...rest));

async function waits(what, holds) {
  for (let count = 0; count < 600; count++) {
    if (holds()) return;
    await new Promise(done => setTimeout(done, 100));
  }
  throw new Error(`waited in vain for ${what}`);
}

// Makes the edits of a change, and tells the client of them as the editor does, from the last one on.
function apply(edit) {
  const lines = text.split("\n");
  const all = edit.all.sort(([, one], [, other]) => other.start.line - one.start.line);
  for (const [, range, made] of all) {
    assert.equal(range.start.line, range.end.line);
    const line = lines[range.start.line];
    lines[range.start.line] = line.slice(0, range.start.character) + made + line.slice(range.end.character);
  }
  text = lines.join("\n");
  marks.clear();
  const contentChanges = all.map(([, range, made]) => ({ range, text: made }));
  events.onDidChangeTextDocument({ document: { ...document, version: ++document.version }, contentChanges });
}

(async () => {
  const context = { subscriptions: [] };
  await require(path.join(TOP, "editors", "vscode", "extension.js")).activate(context);
  await waits("a mark", () => marks.size);
  console.log([...marks.values()][0][0].message);
  console.log((await providers.provideHover(document, { line: 3, character: 34 })).contents.value);
  apply((await providers.provideCodeActions(document, new Range(3, 0, 3, 9)))[0].edit);
  await waits("no mark", () => marks.size && ![...marks.values()][0].length);
  const at = { line: 3, character: 9 };
  await assert.rejects(providers.provideRenameEdits(document, at, "TOOLONG"), /1 to 6 characters/);
  assert.equal((await providers.provideReferences(document, at)).length, 3);
  assert.equal((await providers.provideDefinition(document, at)).length, 1);
  assert.deepEqual((await providers.provideCompletionItems(document, at)).items.map(it => it.label), ["BUS"]);
  assert.equal((await providers.provideDocumentSymbols(document)).length, 4);
  assert.equal((await providers.provideFoldingRanges(document)).length, 3);
  assert.equal((await providers.provideDocumentSemanticTokens(document)).data.length % 5, 0);
  apply(await providers.provideRenameEdits(document, at, "LOAD"));
  fs.writeFileSync(CASE, text);
  for (const it of context.subscriptions) await it.dispose();
})().catch(fault => {
  console.error(fault);
  process.exit(1);
});
