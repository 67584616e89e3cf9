// Runs the client for VS Code with a module in place of the editor, and writes what it does. Words: the server's command as JSON, and a file.
'use strict';
const fs = require('fs');
const Module = require('module');
const path = require('path');

const [command, file] = process.argv.slice(2);
const handlers = {}, providers = {}, took = [];
let text = fs.readFileSync(file, 'utf8'), version = 1, wake = () => {};

const uri = { toString: () => 'file:///a.dpj' };
const document = { uri, languageId: 'dpj', getText: () => text, get version() { return version; } };
const kept = (name) => (handler) => { handlers[name] = handler; return {}; };
const provides = (name) => (_, provider) => { providers[name] = provider; return {}; };
class Holder { constructor(...words) { this.words = words; } }
class WorkspaceEdit { constructor() { this.edits = []; } replace(_, range, now) { this.edits.push({ range, now }); } }

const vscode = {
  Uri: { parse: () => uri },
  Range: Holder, Diagnostic: Holder, Location: Holder, DiagnosticRelatedInformation: Holder, Hover: Holder, MarkdownString: Holder,
  CompletionItem: Holder, CodeAction: Holder, WorkspaceEdit,
  DiagnosticSeverity: { Error: 0 }, CodeActionKind: { QuickFix: 'quickfix' },
  window: { showErrorMessage: (message) => console.log('error', message) },
  languages: {
    createDiagnosticCollection: () => ({ set: (_, found) => { took.push(found); wake(); } }),
    registerHoverProvider: provides('hover'), registerCompletionItemProvider: provides('completion'), registerCodeActionsProvider: provides('mend'),
  },
  workspace: {
    getConfiguration: () => ({ get: () => JSON.parse(command) }), textDocuments: [document],
    onDidOpenTextDocument: kept('open'), onDidChangeTextDocument: kept('change'), onDidCloseTextDocument: kept('close'),
  },
};
const load = Module._load;
Module._load = (name, ...rest) => (name === 'vscode' ? vscode : load(name, ...rest));
const client = require(path.join(__dirname, '..', '..', 'editors', 'textmate', 'extension.js'));

async function diagnostics() {
  while (!took.length) await new Promise((resolve) => { wake = resolve; });
  return took.shift();
}

async function main() {
  await client.activate({ subscriptions: [] });
  const [found] = await diagnostics();
  const [line, start, last, end] = found.words[0].words;
  console.log(`diagnostics 1 ${found.code} ${line}:${start}-${last}:${end}`);
  const hover = await providers.hover.provideHover(document, { line: 5, character: 6 });
  console.log(`hover ${hover.words[0].words[0].split(':')[0]}`);
  const items = await providers.completion.provideCompletionItems(document, { line: 4, character: 26 });
  console.log(`completion ${items.find((item) => item.words[0] === 'Account.Debit').words.join(' ')}`);
  const range = { start: { line: 5, character: 6 }, end: { line: 5, character: 6 } };
  const [mend] = await providers.mend.provideCodeActions(document, range);
  console.log(`mend ${mend.edit.edits.map((edit) => edit.now).join(' ')}`);
  text = 'class Main { int main(int n) { return n; } }\n';
  version = 2;
  handlers.change({ document });
  console.log(`diagnostics ${(await diagnostics()).length}`);
  handlers.close(document);
  await client.deactivate();
  console.log('ended');
}

main();
