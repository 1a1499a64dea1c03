// A client of psg's language server for VS Code. It was not tried. docs/EDITORS.md says how it is installed.
// For another language change `melody` in package.json and below.
const { workspace } = require("vscode");
const { LanguageClient } = require("vscode-languageclient/node");

let client;

exports.activate = () => {
  const settings = workspace.getConfiguration("psg");
  const server = {
    command: settings.get("program"),
    args: ["lsp", settings.get("definition"), settings.get("kind")],
  };
  client = new LanguageClient("psg", "psg", server, {
    documentSelector: [{ scheme: "file", language: "melody" }],
  });
  return client.start();
};

exports.deactivate = () => client && client.stop();
