// The extension starts `redlsp` and speaks to it over standard input and output: messages of JSON, each behind a header that says
// how many bytes it has. It stands on nothing but the editor and Node.
"use strict";
const vscode = require("vscode");
const { spawn } = require("child_process");

const LANGUAGE = "redplay";

class Server {
  constructor(command, log) {
    this.log = log;
    this.number = 0;
    this.waiting = new Map();
    this.heard = Buffer.alloc(0);
    this.notices = new Map();
    this.process = spawn(command, [], { stdio: ["pipe", "pipe", "pipe"] });
    this.process.on("error", (why) => this.fail(`${command} cannot be started: ${why.message}`));
    this.process.on("exit", (status) => this.fail(`${command} ended with status ${status}`));
    this.process.stderr.on("data", (data) => log.append(String(data)));
    this.process.stdout.on("data", (data) => this.hear(data));
    this.process.stdin.on("error", () => {});
  }

  fail(why) {
    this.log.appendLine(why);
    this.failed = true;
    for (const { reject } of this.waiting.values()) reject(new Error(why));
    this.waiting.clear();
  }

  send(message) {
    if (this.failed) return;
    const body = Buffer.from(JSON.stringify({ jsonrpc: "2.0", ...message }));
    this.process.stdin.write(`Content-Length: ${body.length}\r\n\r\n`);
    this.process.stdin.write(body);
  }

  tell(method, params) {
    this.send({ method, params });
  }

  ask(method, params) {
    if (this.failed) return Promise.resolve(null);
    const id = ++this.number;
    return new Promise((resolve, reject) => {
      this.waiting.set(id, { resolve, reject });
      this.send({ id, method, params });
    });
  }

  hear(data) {
    this.heard = Buffer.concat([this.heard, data]);
    for (;;) {
      const end = this.heard.indexOf("\r\n\r\n");
      if (end < 0) return;
      const length = Number(/Content-Length: (\d+)/.exec(this.heard.toString("latin1", 0, end))[1]);
      const start = end + 4;
      if (this.heard.length < start + length) return;
      const message = JSON.parse(this.heard.toString("utf8", start, start + length));
      this.heard = this.heard.subarray(start + length);
      this.take(message);
    }
  }

  take(message) {
    if (message.method !== undefined) {
      const notice = this.notices.get(message.method);
      if (notice) notice(message.params);
      return;
    }
    const asked = this.waiting.get(message.id);
    if (!asked) return;
    this.waiting.delete(message.id);
    if (message.error) asked.reject(new Error(message.error.message));
    else asked.resolve(message.result);
  }
}

// From the protocol's values to the editor's, and back.
const place = (at) => new vscode.Position(at.line, at.character);
const range = (at) => new vscode.Range(place(at.start), place(at.end));
const placed = (at) => ({ line: at.line, character: at.character });
const ranged = (at) => ({ start: placed(at.start), end: placed(at.end) });
const location = (at) => new vscode.Location(vscode.Uri.parse(at.uri), range(at.range));
const about = (document) => ({ textDocument: { uri: document.uri.toString() } });
const at = (document, position) => ({ ...about(document), position: placed(position) });

function edit(changes) {
  const made = new vscode.WorkspaceEdit();
  for (const [uri, edits] of Object.entries(changes)) {
    for (const { range: where, newText } of edits) made.replace(vscode.Uri.parse(uri), range(where), newText);
  }
  return made;
}

function diagnostic(told) {
  const made = new vscode.Diagnostic(range(told.range), told.message, told.severity - 1);
  made.code = told.code;
  made.source = told.source;
  made.relatedInformation = told.relatedInformation.map(
    (other) => new vscode.DiagnosticRelatedInformation(location(other.location), other.message)
  );
  return made;
}

function symbol(told) {
  return new vscode.DocumentSymbol(told.name, "", told.kind - 1, range(told.range), range(told.selectionRange));
}

function offered(item) {
  const made = new vscode.CompletionItem(item.label, item.kind - 1);
  made.detail = item.detail;
  made.range = range(item.textEdit.range);
  made.insertText = item.textEdit.newText;
  made.filterText = item.label;
  return made;
}

function follow(server, context) {
  const isOurs = (document) => document.languageId === LANGUAGE && document.uri.scheme === "file";
  const open = (document) => {
    if (!isOurs(document)) return;
    const { languageId, version } = document;
    server.tell("textDocument/didOpen", {
      textDocument: { uri: document.uri.toString(), languageId, version, text: document.getText() },
    });
  };
  const change = ({ document, contentChanges }) => {
    if (!isOurs(document) || contentChanges.length === 0) return;
    server.tell("textDocument/didChange", {
      textDocument: { uri: document.uri.toString(), version: document.version },
      contentChanges: contentChanges.map((part) => ({ range: ranged(part.range), text: part.text })),
    });
  };
  const close = (document) => isOurs(document) && server.tell("textDocument/didClose", about(document));
  vscode.workspace.textDocuments.forEach(open);
  context.subscriptions.push(
    vscode.workspace.onDidOpenTextDocument(open),
    vscode.workspace.onDidChangeTextDocument(change),
    vscode.workspace.onDidCloseTextDocument(close)
  );
  const watcher = vscode.workspace.createFileSystemWatcher("**/*");
  const watched = (type) => (uri) =>
    isNear(uri) && server.tell("workspace/didChangeWatchedFiles", { changes: [{ uri: uri.toString(), type }] });
  const isNear = (uri) =>
    vscode.workspace.textDocuments.some((document) => isOurs(document) && besideOrBelow(document.uri.path, uri.path));
  context.subscriptions.push(
    watcher,
    watcher.onDidCreate(watched(1)),
    watcher.onDidChange(watched(2)),
    watcher.onDidDelete(watched(3))
  );
}

// Whether the other path is in the folder of this one.
function besideOrBelow(path, other) {
  return other.startsWith(path.slice(0, path.lastIndexOf("/") + 1));
}

function provide(server, context) {
  const files = { language: LANGUAGE, scheme: "file" };
  const { languages } = vscode;
  const add = (...made) => context.subscriptions.push(...made);
  add(
    languages.registerHoverProvider(files, {
      async provideHover(document, position) {
        const found = await server.ask("textDocument/hover", at(document, position));
        return found && new vscode.Hover(new vscode.MarkdownString(found.contents.value), range(found.range));
      },
    }),
    languages.registerDefinitionProvider(files, {
      async provideDefinition(document, position) {
        const found = await server.ask("textDocument/definition", at(document, position));
        return found && location(found);
      },
    }),
    languages.registerReferenceProvider(files, {
      async provideReferences(document, position, { includeDeclaration }) {
        const asked = { ...at(document, position), context: { includeDeclaration } };
        return ((await server.ask("textDocument/references", asked)) || []).map(location);
      },
    }),
    languages.registerCompletionItemProvider(
      files,
      {
        async provideCompletionItems(document, position) {
          return (await server.ask("textDocument/completion", at(document, position))).map(offered);
        },
      },
      ":",
      "("
    ),
    languages.registerDocumentSymbolProvider(files, {
      async provideDocumentSymbols(document) {
        return (await server.ask("textDocument/documentSymbol", about(document))).map(symbol);
      },
    }),
    languages.registerWorkspaceSymbolProvider({
      async provideWorkspaceSymbols(query) {
        const found = await server.ask("workspace/symbol", { query });
        return found.map((one) => new vscode.SymbolInformation(one.name, one.kind - 1, "", location(one.location)));
      },
    }),
    languages.registerRenameProvider(files, {
      async prepareRename(document, position) {
        const found = await server.ask("textDocument/prepareRename", at(document, position));
        if (!found) throw new Error("no number of an object stands there");
        return range(found);
      },
      async provideRenameEdits(document, position, newName) {
        const found = await server.ask("textDocument/rename", { ...at(document, position), newName });
        return edit(found.changes);
      },
    }),
    languages.registerFoldingRangeProvider(files, {
      async provideFoldingRanges(document) {
        const found = await server.ask("textDocument/foldingRange", about(document));
        return found.map((one) => new vscode.FoldingRange(one.startLine, one.endLine));
      },
    }),
    languages.registerColorProvider(files, {
      async provideDocumentColors(document) {
        const found = await server.ask("textDocument/documentColor", about(document));
        return found.map(({ color, range: where }) => {
          const { red, green, blue, alpha } = color;
          return new vscode.ColorInformation(range(where), new vscode.Color(red, green, blue, alpha));
        });
      },
      async provideColorPresentations(color, { document, range: where }) {
        const { red, green, blue, alpha } = color;
        const asked = { ...about(document), color: { red, green, blue, alpha }, range: ranged(where) };
        const found = await server.ask("textDocument/colorPresentation", asked);
        return found.map((one) => new vscode.ColorPresentation(one.label));
      },
    }),
    languages.registerDocumentFormattingEditProvider(files, {
      async provideDocumentFormattingEdits(document) {
        const found = await server.ask("textDocument/formatting", about(document));
        return found.map((one) => vscode.TextEdit.replace(range(one.range), one.newText));
      },
    }),
    languages.registerCodeActionsProvider(files, {
      async provideCodeActions(document, where, { diagnostics }) {
        const told = diagnostics.map((one) => ({
          severity: one.severity + 1,
          code: one.code,
          message: one.message,
          range: ranged(one.range),
        }));
        const asked = { ...about(document), range: ranged(where), context: { diagnostics: told } };
        return (await server.ask("textDocument/codeAction", asked)).map((one) => {
          const made = new vscode.CodeAction(one.title, vscode.CodeActionKind.QuickFix);
          made.edit = edit(one.edit.changes);
          return made;
        });
      },
    })
  );
}

let server;

async function activate(context) {
  const log = vscode.window.createOutputChannel("redlsp");
  server = new Server(vscode.workspace.getConfiguration("redplay").get("server"), log);
  const found = vscode.languages.createDiagnosticCollection("redlsp");
  context.subscriptions.push(log, found);
  server.notices.set("textDocument/publishDiagnostics", ({ uri, diagnostics }) =>
    found.set(vscode.Uri.parse(uri), diagnostics.map(diagnostic))
  );
  try {
    await server.ask("initialize", { processId: process.pid, rootUri: null, capabilities: {} });
  } catch (why) {
    vscode.window.showWarningMessage(`redplay: ${why.message}`);
    return;
  }
  server.tell("initialized", {});
  follow(server, context);
  provide(server, context);
}

async function deactivate() {
  if (!server || server.failed) return;
  await server.ask("shutdown", null);
  server.tell("exit", null);
}

module.exports = { activate, deactivate };
