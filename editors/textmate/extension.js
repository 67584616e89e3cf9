// A client of tools/language_server.py for VS Code: it hands texts over, and takes diagnostics, hovers, completions and mends.
'use strict';
const vscode = require('vscode');
const fs = require('fs');
const path = require('path');
const { spawn } = require('child_process');

const LANGUAGE = 'dpj';
const waiting = new Map();
let server, diagnostics, requests = 0, received = Buffer.alloc(0);

function send(message) {
  if (!server || !server.stdin.writable) return;
  const body = Buffer.from(JSON.stringify({ jsonrpc: '2.0', ...message }));
  server.stdin.write(`Content-Length: ${body.length}\r\n\r\n`);
  server.stdin.write(body);
}

function ask(method, params) {
  if (!server) return Promise.resolve(null);
  const id = ++requests;
  send({ id, method, params });
  return new Promise((resolve) => waiting.set(id, resolve));
}

// What is asked of a server that has ended has no answer.
function ended() {
  server = undefined;
  waiting.forEach((resolve) => resolve(null));
  waiting.clear();
}

function takeBytes(bytes) {
  received = Buffer.concat([received, bytes]);
  for (;;) {
    const end = received.indexOf('\r\n\r\n');
    const length = /content-length: *(\d+)/i.exec(received.slice(0, Math.max(end, 0)).toString());
    if (!length || received.length < end + 4 + Number(length[1])) return;
    const body = received.slice(end + 4, end + 4 + Number(length[1]));
    received = received.slice(end + 4 + body.length);
    takeMessage(JSON.parse(body));
  }
}

function takeMessage(message) {
  if (message.method === 'textDocument/publishDiagnostics') {
    diagnostics.set(vscode.Uri.parse(message.params.uri), message.params.diagnostics.map(diagnosticOf));
  } else if (message.method === 'window/showMessage') {
    vscode.window.showErrorMessage(message.params.message);
  } else if (waiting.has(message.id)) {
    waiting.get(message.id)(message.result);
    waiting.delete(message.id);
  }
}

function rangeOf({ start, end }) {
  return new vscode.Range(start.line, start.character, end.line, end.character);
}

function diagnosticOf(found) {
  const made = new vscode.Diagnostic(rangeOf(found.range), found.message, vscode.DiagnosticSeverity.Error);
  made.source = found.source;
  made.code = found.code;
  made.relatedInformation = found.relatedInformation.map(({ location, message }) =>
    new vscode.DiagnosticRelatedInformation(new vscode.Location(vscode.Uri.parse(location.uri), rangeOf(location.range)), message));
  return made;
}

const named = (document) => ({ uri: document.uri.toString() });
const at = (document, position) => ({ textDocument: named(document), position: { line: position.line, character: position.character } });

function opened(document) {
  if (document.languageId !== LANGUAGE) return;
  send({ method: 'textDocument/didOpen', params: { textDocument: { ...named(document), languageId: LANGUAGE, version: document.version, text: document.getText() } } });
}

function changed({ document }) {
  if (document.languageId !== LANGUAGE) return;
  send({ method: 'textDocument/didChange', params: { textDocument: { ...named(document), version: document.version }, contentChanges: [{ text: document.getText() }] } });
}

function closed(document) {
  if (document.languageId === LANGUAGE) send({ method: 'textDocument/didClose', params: { textDocument: named(document) } });
}

async function hover(document, position) {
  const found = await ask('textDocument/hover', at(document, position));
  return found ? new vscode.Hover(new vscode.MarkdownString(found.contents.value), found.range && rangeOf(found.range)) : null;
}

async function complete(document, position) {
  const found = await ask('textDocument/completion', at(document, position));
  return found ? found.items.map(({ label, kind, detail }) => {
    // The editor counts kinds from 0, the protocol from 1.
    const item = new vscode.CompletionItem(label, kind - 1);
    item.detail = detail;
    return item;
  }) : [];
}

async function mend(document, range) {
  const where = { start: { line: range.start.line, character: range.start.character }, end: { line: range.end.line, character: range.end.character } };
  const found = await ask('textDocument/codeAction', { textDocument: named(document), range: where, context: { diagnostics: [] } });
  return (found || []).map(({ title, edit }) => {
    const action = new vscode.CodeAction(title, vscode.CodeActionKind.QuickFix);
    action.edit = new vscode.WorkspaceEdit();
    for (const { range, newText } of edit.changes[document.uri.toString()]) action.edit.replace(document.uri, rangeOf(range), newText);
    return action;
  });
}

function command() {
  const set = vscode.workspace.getConfiguration('dpj').get('server');
  return set && set.length ? set : ['python3', path.join(fs.realpathSync(__dirname), '..', '..', 'tools', 'language_server.py')];
}

async function activate(context) {
  diagnostics = vscode.languages.createDiagnosticCollection(LANGUAGE);
  const [program, ...words] = command();
  server = spawn(program, words, { stdio: ['pipe', 'pipe', 'ignore'] });
  server.on('error', (error) => vscode.window.showErrorMessage(`dpj: the language server doesn't start: ${error.message}`));
  server.on('exit', ended);
  server.stdin.on('error', () => {});
  server.stdout.on('data', takeBytes);
  const starting = ask('initialize', { processId: process.pid, rootUri: null, capabilities: {} });
  send({ method: 'initialized', params: {} });
  context.subscriptions.push(
    diagnostics,
    vscode.workspace.onDidOpenTextDocument(opened),
    vscode.workspace.onDidChangeTextDocument(changed),
    vscode.workspace.onDidCloseTextDocument(closed),
    vscode.languages.registerHoverProvider(LANGUAGE, { provideHover: hover }),
    vscode.languages.registerCompletionItemProvider(LANGUAGE, { provideCompletionItems: complete }, '.', ':'),
    vscode.languages.registerCodeActionsProvider(LANGUAGE, { provideCodeActions: mend }));
  vscode.workspace.textDocuments.forEach(opened);
  await starting;
}

async function deactivate() {
  await ask('shutdown', null);
  send({ method: 'exit' });
}

module.exports = { activate, deactivate };
