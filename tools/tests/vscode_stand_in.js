// VS Code as its extension sees it: node vscode_stand_in.js FOLDER SERVER SCRIPT prints what the providers answer.
const Module = require("module"), fs = require("fs"), path = require("path");
const [folder, server, script] = process.argv.slice(2);
const text = fs.readFileSync(script, "utf8");
const uri = { toString: () => "file://" + script };
const document = { uri, languageId: "cga_city", fileName: script, getText: () => text };
const made = {}, found = [];
class Range { constructor(...all) { this.all = all; } }
const plain = (...names) =>
  Object.fromEntries(names.map((name) => [name, class { constructor(...all) { this.all = all; } }]));
const vscode = {
  Range, ...plain("Location", "Diagnostic", "CompletionItem", "Hover", "MarkdownString", "TextEdit", "CodeAction"),
  WorkspaceEdit: class { constructor() { this.edits = []; } replace(...all) { this.edits.push(all); } },
  CodeActionKind: { Source: "source" }, Uri: { parse: (one) => one },
  window: { activeTextEditor: { document }, showErrorMessage: (told) => console.log(told) },
  workspace: { getConfiguration: () => ({ get: () => server }), textDocuments: [document],
    onDidOpenTextDocument: () => ({}), onDidChangeTextDocument: () => ({}), onDidCloseTextDocument: () => ({}) },
  languages: new Proxy({}, { get: (_, name) => (...all) => {
    if (name === "createDiagnosticCollection") return { set: (_, list) => found.push(list) };
    made[name] = all[1];
    return {};
  } }),
};
const load = Module._load;
Module._load = (name, ...rest) => name === "vscode" ? vscode : load(name, ...rest);
const context = { subscriptions: [] };
require(path.join(folder, "extension.js")).activate(context).then(async () => {
  const lines = text.split("\n"), line = lines.findIndex((one) => one.includes(": bay :"));
  const position = { line, character: lines[line].indexOf("bay") };
  const behind = { line, character: lines[line].indexOf("->") + 3 };
  const always = { includeDeclaration: true };
  const out = {
    hover: (await made.registerHoverProvider.provideHover(document, position)).all[0].all[0],
    definitions: (await made.registerDefinitionProvider.provideDefinition(document, position)).length,
    references: (await made.registerReferenceProvider.provideReferences(document, position, always)).length,
    renamed: (await made.registerRenameProvider.provideRenameEdits(document, position, "tile")).edits.length,
    words: (await made.registerCompletionItemProvider.provideCompletionItems(document, behind)).length,
    actions: (await made.registerCodeActionsProvider.provideCodeActions(document)).map((one) => one.all[0]),
  };
  while (!found.length) await new Promise((next) => setTimeout(next, 50));
  console.log(JSON.stringify({ ...out, findings: found[0].map((one) => one.all[1].split("\n")[0]) }));
  context.subscriptions.forEach((one) => one.dispose && one.dispose());
});
