#!/usr/bin/env node
// Runs the code of editors/vscode over stand-ins of VS Code and of its package for clients, against the language server: starts it by a
// path where nothing is, mends that path, starts the server anew, twice at once, asks for a hover each time, and ends. What VS Code makes
// of the folder isn't tried, but that its files of JSON can be read and name each other rightly.
// Usage: vscode.js PROGRAM. Status 0: all right, 1: a wrong answer, 2: it could not be tried.
const { spawn } = require("child_process");
const { once } = require("events");
const fs = require("fs");
const Module = require("module");
const path = require("path");

const folder = path.join(__dirname, "..", "vscode");
const program = process.argv.length === 3 ? path.resolve(process.argv[2]) : undefined;
if (!program || !fs.existsSync(program)) {
  console.error(program ? `vscode.js: no program at ${program}` : "usage: vscode.js PROGRAM");
  process.exit(2);
}
const settings = { path: "/nowhere/abnf_ls" };
const commands = {}, told = [], clients = [];
let onChange, passed = 0, failed = 0;

function is(what, got, want) {
  const right = JSON.stringify(got) === JSON.stringify(want);
  right ? passed++ : failed++;
  console.log(right ? `ok   ${what}` : `FAIL ${what}\n     got  ${JSON.stringify(got)}\n     want ${JSON.stringify(want)}`);
}

// As the package has it: one that couldn't start its server can neither be stopped nor started again.
class LanguageClient {
  constructor(_id, _name, server, options) {
    Object.assign(this, { server, options, state: "new", bytes: Buffer.alloc(0), asked: 0 });
    clients.push(this);
  }
  isRunning() { return this.state === "running"; }
  async start() {
    if (this.state !== "new") throw Error(`started while ${this.state}`);
    this.state = "starting";
    this.process = spawn(this.server.command, this.server.args ?? [], { stdio: ["pipe", "pipe", "inherit"] });
    this.process.stdout.on("data", (it) => { this.bytes = Buffer.concat([this.bytes, it]); });
    try { await once(this.process, "spawn"); } catch (fault) { this.state = "failed"; throw `Launching server failed. ${fault}`; }
    await this.ask("initialize", { processId: null, rootUri: null, capabilities: {} });
    this.send({ method: "initialized", params: {} });
    this.state = "running";
  }
  async dispose() {
    if (!this.isRunning()) throw Error(`stopped while ${this.state}`);
    this.state = "stopping";
    await this.ask("shutdown");
    this.send({ method: "exit" });
    [this.status] = await once(this.process, "exit");
    this.state = "stopped";
  }
  send(message) {
    const body = JSON.stringify({ jsonrpc: "2.0", ...message });
    this.process.stdin.write(`Content-Length: ${Buffer.byteLength(body)}\r\n\r\n${body}`);
  }
  async ask(method, params) {
    const id = ++this.asked;
    this.send({ id, method, params });
    for (let message; ;) {
      while ((message = this.read())) if (message.id === id) return message.result;
      await once(this.process.stdout, "data");
    }
  }
  read() {
    const head = /^Content-Length: (\d+)\r\n\r\n/.exec(this.bytes.toString("latin1"));
    if (!head || this.bytes.length < head[0].length + Number(head[1])) return undefined;
    const body = this.bytes.subarray(head[0].length, head[0].length + Number(head[1]));
    this.bytes = this.bytes.subarray(head[0].length + body.length);
    return JSON.parse(body);
  }
}
const vscode = {
  commands: { registerCommand: (name, act) => { commands[name] = act; } },
  window: { showErrorMessage: (text) => { told.push(text); } },
  workspace: {
    getConfiguration: (section) => ({ get: (name) => (section === "abnf_ls" ? settings[name] : undefined) }),
    onDidChangeConfiguration: (act) => { onChange = act; },
  },
};
const load = Module._load;
Module._load = (name, ...more) => ({ vscode, "vscode-languageclient/node": { LanguageClient } })[name] ?? load(name, ...more);

async function hover() {
  const client = clients.at(-1), uri = "file:///a.abnf", position = { line: 0, character: 0 };
  client.send({ method: "textDocument/didOpen", params: { textDocument: { uri, languageId: "abnf", version: 1, text: 'a = "hi"\n' } } });
  return (await client.ask("textDocument/hover", { textDocument: { uri }, position })).contents.value;
}
const states = () => clients.map((it) => it.state).join(" ");

async function main() {
  const json = (name) => JSON.parse(fs.readFileSync(path.join(folder, name)));
  const { contributes, main: code } = json("package.json");
  const words = new RegExp(json(contributes.languages[0].configuration).wordPattern, "g");
  is("a word is a whole name", 'id-right = 1*(ALPHA / DIGIT / "-")'.match(words), ["id-right", "ALPHA", "DIGIT"]);
  const extension = require(path.join(folder, code));
  await extension.activate({ subscriptions: [] });
  is("its commands", Object.keys(commands), contributes.commands.map((it) => it.command));
  is("where nothing is", [states(), told.length, told[0].includes("abnf_ls.path")], ["failed", 1, true]);
  settings.path = program;
  await onChange({ affectsConfiguration: (name) => name in contributes.configuration.properties });
  is("the path is mended", [states(), await hover()], ["failed running", "shortest length 2\nexample hi"]);
  await commands["abnf_ls.restart"]();
  is("the server anew", [states(), await hover()], ["failed stopped running", "shortest length 2\nexample hi"]);
  await Promise.all([commands["abnf_ls.restart"](), commands["abnf_ls.restart"]()]);
  is("twice at once", [states(), await hover()], ["failed stopped stopped stopped running", "shortest length 2\nexample hi"]);
  await extension.deactivate();
  is("the end", [clients.at(-1).state, ...clients.slice(1).map((it) => it.status)], ["stopped", 0, 0, 0, 0]);
  is("what was told beside", told.slice(1), []);
  console.log(`vscode.js: ${passed} passed, ${failed} failed (Node ${process.version})`);
  process.exit(failed ? 1 : 0);
}
main().catch((fault) => { console.error(fault); process.exit(1); });
