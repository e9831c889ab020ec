// VS Code: starts the language server for ABNF grammars, and for drafts. EDITORS says how an extension is made of this folder, and what was
// tried of it.
// F12 goes from a name to its definition, Shift+F12 lists its places, F2 renames it, Ctrl+. inserts the shortest example of its rule,
// Ctrl+Shift+O shows the outline; the pointer on a name shows what its rule generates at the shortest. The setting abnf_ls.path is the
// server's path; a folder can't say it, so the server also runs in one that isn't trusted.
const vscode = require("vscode");
const { LanguageClient } = require("vscode-languageclient/node");

let client;
let last = Promise.resolve();

// Starts the server by a client of its own: one that couldn't start its server can neither be stopped nor started again.
async function start() {
  await stop().catch(() => {}); // (the client itself has told that, and its server is ended all the same)
  // A command and no transport: with a transport the client would add an argument, as --stdio, which the server refuses.
  const server = { command: vscode.workspace.getConfiguration("abnf_ls").get("path") };
  // (beside others for Markdown and XML: where it finds no block of ABNF it says nothing)
  const documentSelector = ["abnf", "markdown", "xml"].map((language) => ({ language }));
  client = new LanguageClient("abnf_ls", "abnf_ls", server, { documentSelector, initializationOptions: { drafts: true } });
  try {
    await client.start();
  } catch (fault) {
    vscode.window.showErrorMessage(`The ABNF server doesn't start, whose path the setting abnf_ls.path has: ${fault}`);
  }
}

async function stop() {
  const old = client;
  client = undefined;
  if (old && old.isRunning()) await old.dispose();
}

// What is asked for is done one after the other, whatever came of the one before.
function next(step) {
  last = last.then(step, step);
  return last;
}

function activate(context) {
  context.subscriptions.push(
    vscode.commands.registerCommand("abnf_ls.restart", () => next(start)),
    vscode.workspace.onDidChangeConfiguration((change) => change.affectsConfiguration("abnf_ls.path") && next(start)),
  );
  return next(start);
}

function deactivate() {
  return next(stop);
}

module.exports = { activate, deactivate };
