// A client of `emtp lsp` for VS Code, without packages of npm: what the editor asks goes to the server as it is, and what the
// server answers becomes the editor's own objects.
"use strict";
const vscode = require("vscode");
const { spawn } = require("child_process");

// The server's process, and the requests that wait for its answers.
class Server {
  constructor(command, told) {
    this.told = told;
    this.number = 0;
    this.waiting = new Map();
    this.rest = Buffer.alloc(0);
    this.process = spawn(command, ["lsp"]);
    this.process.stdout.on("data", part => this.take(part));
    this.process.on("error", fault => vscode.window.showErrorMessage(`emtp lsp: ${fault.message}`));
    this.process.on("exit", () => this.fail("the server has ended"));
  }
  fail(text) {
    for (const { failed } of this.waiting.values()) failed(new Error(text));
    this.waiting.clear();
  }
  take(part) {
    this.rest = Buffer.concat([this.rest, part]);
    for (;;) {
      const end = this.rest.indexOf("\r\n\r\n");
      if (end < 0) return;
      const length = Number(/content-length: *(\d+)/i.exec(this.rest.toString("ascii", 0, end))[1]);
      if (this.rest.length < end + 4 + length) return;
      const message = JSON.parse(this.rest.toString("utf8", end + 4, end + 4 + length));
      this.rest = this.rest.subarray(end + 4 + length);
      if (message.method) this.told(message.method, message.params);
      else this.answer(message);
    }
  }
  answer({ id, error, result }) {
    const asked = this.waiting.get(id);
    this.waiting.delete(id);
    if (asked && error) asked.failed(new Error(error.message));
    else if (asked) asked.done(result);
  }
  send(message) {
    const body = JSON.stringify({ jsonrpc: "2.0", ...message });
    this.process.stdin.write(`Content-Length: ${Buffer.byteLength(body)}\r\n\r\n${body}`);
  }
  note(method, params) {
    this.send({ method, params });
  }
  ask(method, params) {
    const id = ++this.number;
    this.send({ id, method, params });
    return new Promise((done, failed) => this.waiting.set(id, { done, failed }));
  }
}

// ---- the protocol's values as the editor's, and the other way round

const place = it => ({ line: it.line, character: it.character });
const places = it => ({ start: place(it.start), end: place(it.end) });
const range = it => new vscode.Range(it.start.line, it.start.character, it.end.line, it.end.character);
const of = document => ({ textDocument: { uri: document.uri.toString() } });
const at = (document, position) => ({ ...of(document), position: place(position) });
const location = it => new vscode.Location(vscode.Uri.parse(it.uri), range(it.range));

function edit(given) {
  const made = new vscode.WorkspaceEdit();
  for (const [uri, edits] of Object.entries(given.changes)) {
    for (const one of edits) made.replace(vscode.Uri.parse(uri), range(one.range), one.newText);
  }
  return made;
}

function mark(it) {
  const made = new vscode.Diagnostic(range(it.range), it.message, it.severity - 1);
  made.source = it.source;
  made.code = it.code;
  return made;
}

function item(it) {
  const made = new vscode.CompletionItem(it.label, it.kind - 1);
  const own = { insertText: it.textEdit.newText, range: range(it.textEdit.range), filterText: it.filterText, detail: it.detail };
  return Object.assign(made, own);
}

function symbol(it) {
  const made = new vscode.DocumentSymbol(it.name, it.detail || "", it.kind - 1, range(it.range), range(it.selectionRange));
  made.children = (it.children || []).map(symbol);
  return made;
}

function fix(it) {
  const made = new vscode.CodeAction(it.title, vscode.CodeActionKind.QuickFix);
  made.edit = edit(it.edit);
  made.diagnostics = it.diagnostics.map(mark);
  return made;
}

// ---- what the editor asks

function providers(server, legend) {
  const { languages } = vscode, select = "emtp";
  const ask = (name, params) => server.ask(`textDocument/${name}`, params);
  return [
    languages.registerHoverProvider(select, {
      provideHover: async (document, position) => {
        const it = await ask("hover", at(document, position));
        return it && new vscode.Hover(new vscode.MarkdownString(it.contents.value));
      },
    }),
    languages.registerCompletionItemProvider(select, {
      provideCompletionItems: async (document, position) => {
        const found = await ask("completion", at(document, position));
        return new vscode.CompletionList(found.items.map(item), found.isIncomplete);
      },
    }),
    languages.registerRenameProvider(select, {
      provideRenameEdits: async (document, position, newName) =>
        edit(await ask("rename", { ...at(document, position), newName })),
    }),
    languages.registerDefinitionProvider(select, {
      provideDefinition: async (document, position) => (await ask("definition", at(document, position))).map(location),
    }),
    languages.registerReferenceProvider(select, {
      provideReferences: async (document, position) => (await ask("references", at(document, position))).map(location),
    }),
    languages.registerCodeActionsProvider(select, {
      provideCodeActions: async (document, asked) =>
        (await ask("codeAction", { ...of(document), range: places(asked), context: {} })).map(fix),
    }),
    languages.registerDocumentSymbolProvider(select, {
      provideDocumentSymbols: async document => (await ask("documentSymbol", of(document))).map(symbol),
    }),
    languages.registerFoldingRangeProvider(select, {
      provideFoldingRanges: async document =>
        (await ask("foldingRange", of(document))).map(it => new vscode.FoldingRange(it.startLine, it.endLine)),
    }),
    languages.registerDocumentSemanticTokensProvider(select, {
      provideDocumentSemanticTokens: async document =>
        new vscode.SemanticTokens(Uint32Array.from((await ask("semanticTokens/full", of(document))).data)),
    }, legend),
  ];
}

// What the editor tells of documents.
function documents(server) {
  const { workspace } = vscode, ours = document => document.languageId === "emtp";
  const opened = document => ours(document) && server.note("textDocument/didOpen", {
    textDocument: { uri: document.uri.toString(), languageId: "emtp", version: document.version, text: document.getText() },
  });
  workspace.textDocuments.forEach(opened);
  return [
    workspace.onDidOpenTextDocument(opened),
    workspace.onDidCloseTextDocument(document => ours(document) && server.note("textDocument/didClose", of(document))),
    workspace.onDidChangeTextDocument(({ document, contentChanges }) => ours(document) && server.note("textDocument/didChange", {
      textDocument: { uri: document.uri.toString(), version: document.version },
      contentChanges: contentChanges.map(it => ({ range: places(it.range), text: it.text })),
    })),
  ];
}

async function activate(context) {
  const marks = vscode.languages.createDiagnosticCollection("emtp");
  const server = new Server(vscode.workspace.getConfiguration("emtp").get("command"), (method, params) => {
    if (method === "textDocument/publishDiagnostics") marks.set(vscode.Uri.parse(params.uri), params.diagnostics.map(mark));
    else if (method === "window/showMessage") vscode.window.showErrorMessage(params.message);
  });
  const { capabilities } = await server.ask("initialize", { processId: process.pid, rootUri: null, capabilities: {} });
  server.note("initialized", {});
  const legend = new vscode.SemanticTokensLegend(capabilities.semanticTokensProvider.legend.tokenTypes);
  const leaves = { dispose: () => server.ask("shutdown").then(() => server.note("exit"), () => {}) };
  context.subscriptions.push(marks, leaves, ...documents(server), ...providers(server, legend));
}

module.exports = { activate, deactivate() {} };
