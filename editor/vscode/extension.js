// Starts the language server for scripts, and hands its answers to VS Code. It needs no package beside VS Code.
const childProcess = require("child_process");
const fs = require("fs");
const path = require("path");
const vscode = require("vscode");

const LANGUAGE = "cga_city";

// The server that the settings name, else that of a repository above the script, else one on the PATH
function command(script) {
  const named = vscode.workspace.getConfiguration(LANGUAGE).get("languageServer");
  if (named) return named;
  for (let folder = path.dirname(script); folder !== path.dirname(folder); folder = path.dirname(folder)) {
    const found = path.join(folder, "tools", "language_server");
    if (fs.existsSync(found)) return found;
  }
  return "language_server";
}

class Client {
  constructor(program, onFindings) {
    this.data = Buffer.alloc(0);
    this.waiting = new Map();
    this.number = 0;
    this.onFindings = onFindings;
    this.process = childProcess.spawn(program, [], { stdio: ["pipe", "pipe", "ignore"] });
    this.process.stdout.on("data", (data) => this.read(data));
    this.process.stdin.on("error", () => {});
    this.process.on("error", (fault) => vscode.window.showErrorMessage(`cga_city: ${program}: ${fault.message}`));
  }

  write(message) {
    const data = Buffer.from(JSON.stringify({ jsonrpc: "2.0", ...message }));
    this.process.stdin.write(`Content-Length: ${data.length}\r\n\r\n`);
    this.process.stdin.write(data);
  }

  notify(method, params) {
    this.write({ method, params });
  }

  ask(method, params) {
    const id = ++this.number;
    this.write({ id, method, params });
    return new Promise((resolve, reject) => this.waiting.set(id, { resolve, reject }));
  }

  read(data) {
    this.data = Buffer.concat([this.data, data]);
    for (;;) {
      const end = this.data.indexOf("\r\n\r\n");
      const head = end < 0 ? null : /Content-Length: *(\d+)/i.exec(this.data.toString("latin1", 0, end));
      if (!head || this.data.length < end + 4 + Number(head[1])) return;
      const next = end + 4 + Number(head[1]);
      this.take(JSON.parse(this.data.toString("utf8", end + 4, next)));
      this.data = this.data.subarray(next);
    }
  }

  take(message) {
    const waiting = this.waiting.get(message.id);
    this.waiting.delete(message.id);
    if (waiting && message.error) waiting.reject(new Error(message.error.message));
    else if (waiting) waiting.resolve(message.result);
    else if (message.method === "textDocument/publishDiagnostics") this.onFindings(message.params);
  }
}

const range = (told) =>
  new vscode.Range(told.start.line, told.start.character, told.end.line, told.end.character);
const location = (told) => new vscode.Location(vscode.Uri.parse(told.uri), range(told.range));
const about = (document, position) => ({
  textDocument: { uri: document.uri.toString() },
  ...(position && { position: { line: position.line, character: position.character } }),
});

function finding(told) {
  const found = new vscode.Diagnostic(range(told.range), told.message, told.severity - 1);
  found.source = told.source;
  found.code = told.code;
  return found;
}

function completion(told) {
  const item = new vscode.CompletionItem(told.label, told.kind - 1);
  item.detail = told.detail;
  item.insertText = told.insertText || told.label;
  return item;
}

function workspaceEdit(told) {
  const edit = new vscode.WorkspaceEdit();
  for (const [uri, changes] of Object.entries(told.changes)) {
    for (const change of changes) edit.replace(vscode.Uri.parse(uri), range(change.range), change.newText);
  }
  return edit;
}

function action(told) {
  const found = new vscode.CodeAction(told.title, vscode.CodeActionKind.Source);
  found.edit = workspaceEdit(told.edit);
  return found;
}

// What VS Code asks for, by the request that answers it
function providers(ask) {
  const at = (method, more) => (document, position) => ask(method, { ...about(document, position), ...more });
  return [
    ["registerCompletionItemProvider", {
      provideCompletionItems: async (...place) => (await at("textDocument/completion")(...place)).map(completion),
    }, '"', ".", "{"],
    ["registerHoverProvider", {
      provideHover: async (...place) => {
        const told = await at("textDocument/hover")(...place);
        return told && new vscode.Hover(new vscode.MarkdownString(told.contents.value), range(told.range));
      },
    }],
    ["registerDefinitionProvider", {
      provideDefinition: async (...place) => (await at("textDocument/definition")(...place)).map(location),
    }],
    ["registerReferenceProvider", {
      provideReferences: async (document, position, context) =>
        (await at("textDocument/references", { context })(document, position)).map(location),
    }],
    ["registerRenameProvider", {
      provideRenameEdits: async (document, position, newName) =>
        workspaceEdit(await at("textDocument/rename", { newName })(document, position)),
    }],
    ["registerDocumentFormattingEditProvider", {
      provideDocumentFormattingEdits: async (document) =>
        (await at("textDocument/formatting")(document)).map((told) => new vscode.TextEdit(range(told.range), told.newText)),
    }],
    ["registerCodeActionsProvider", {
      provideCodeActions: async (document) => (await at("textDocument/codeAction")(document)).map(action),
    }],
  ];
}

async function start(context, script) {
  const findings = vscode.languages.createDiagnosticCollection(LANGUAGE);
  const client = new Client(command(script), (told) =>
    findings.set(vscode.Uri.parse(told.uri), told.diagnostics.map(finding)));
  await client.ask("initialize", { processId: process.pid, rootUri: null, capabilities: {} });
  client.notify("initialized", {});
  const isOurs = (document) => document.languageId === LANGUAGE;
  const text = (document) => ({ uri: document.uri.toString(), text: document.getText(), languageId: LANGUAGE, version: 0 });
  const open = (document) => isOurs(document) && client.notify("textDocument/didOpen", { textDocument: text(document) });
  const change = ({ document }) => isOurs(document) && client.notify("textDocument/didChange", {
    ...about(document), contentChanges: [{ text: document.getText() }],
  });
  const close = (document) => isOurs(document) && client.notify("textDocument/didClose", about(document));
  vscode.workspace.textDocuments.forEach(open);
  context.subscriptions.push(
    findings,
    vscode.workspace.onDidOpenTextDocument(open),
    vscode.workspace.onDidChangeTextDocument(change),
    vscode.workspace.onDidCloseTextDocument(close),
    ...providers((method, params) => client.ask(method, params)).map(([name, provider, ...more]) =>
      vscode.languages[name](LANGUAGE, provider, ...more)),
    { dispose: () => client.process.kill() },
  );
}

function activate(context) {
  const shown = vscode.window.activeTextEditor;
  return start(context, shown ? shown.document.fileName : process.cwd());
}

module.exports = { activate };
