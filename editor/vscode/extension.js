// The format command. `chor fmt` drops comments, so it isn't run over a file that has some without a question.
'use strict';

const { execFile } = require('child_process');
const fs = require('fs');
const os = require('os');
const path = require('path');
const vscode = require('vscode');

/** The lines, from 1, that have a comment; what is in a text is none. */
function linesWithComments(source) {
  const lines = source.split('\n').map((line) => line.replace(/"(?:[^"\\]|\\.)*("|$)/g, '""'));
  return lines.flatMap((line, place) => (line.includes('//') ? [place + 1] : []));
}

function program() {
  return vscode.workspace.getConfiguration('chor').get('path') || process.env.CHOR || 'chor';
}

/** The canonical text of a source; the promise fails with what the program says of it. */
function formatted(source) {
  const room = fs.mkdtempSync(path.join(os.tmpdir(), 'chor-'));
  const file = path.join(room, 'source.chor');
  fs.writeFileSync(file, source);
  return new Promise((done, fail) => {
    execFile(program(), ['fmt', file], { maxBuffer: 1 << 26 }, (error, written) => {
      fs.rmSync(room, { recursive: true, force: true });
      if (error) {
        fail(new Error(written.trim() || error.message));
      } else {
        done(written);
      }
    });
  });
}

/** The edits that format a document. */
async function editsOf(document) {
  const text = document.getText();
  const all = new vscode.Range(document.positionAt(0), document.positionAt(text.length));
  try {
    return [vscode.TextEdit.replace(all, await formatted(text))];
  } catch (refusal) {
    vscode.window.showErrorMessage(`chor fmt: ${refusal.message}`);
    return [];
  }
}

function warning(lines) {
  const others = lines.length > 1 ? ` and ${lines.length - 1} more` : '';
  return `Formatting would drop the comment in line ${lines[0]}${others}.`;
}

/** Formatting by the editor, also when a file is saved: never over a file with comments. */
async function provideEdits(document) {
  const lines = linesWithComments(document.getText());
  if (lines.length > 0) {
    vscode.window.showWarningMessage(`${warning(lines)} The command "Chor: Format" does so.`);
    return [];
  }
  return editsOf(document);
}

/** The command: asks where comments would be dropped. */
async function format() {
  const editor = vscode.window.activeTextEditor;
  if (!editor || editor.document.languageId !== 'chor') {
    return;
  }
  const lines = linesWithComments(editor.document.getText());
  const drop = 'Drop comments';
  if (lines.length > 0 && (await vscode.window.showWarningMessage(warning(lines), { modal: true }, drop)) !== drop) {
    return;
  }
  const edits = await editsOf(editor.document);
  const change = new vscode.WorkspaceEdit();
  change.set(editor.document.uri, edits);
  await vscode.workspace.applyEdit(change);
}

function activate(context) {
  context.subscriptions.push(
    vscode.languages.registerDocumentFormattingEditProvider('chor', { provideDocumentFormattingEdits: provideEdits }),
    vscode.commands.registerCommand('chor.format', format)
  );
}

module.exports = { activate, linesWithComments };
